package shop;

public class Unpaid extends IllegalArgumentException {}
