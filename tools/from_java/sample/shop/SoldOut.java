package shop;

public class SoldOut extends OutOfStock {}
