package shop;

public class Placed {}
