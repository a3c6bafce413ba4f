package shop;

public class OutOfStock extends Exception {}
