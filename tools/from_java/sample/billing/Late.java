package billing;

public class Late extends Exception {}
