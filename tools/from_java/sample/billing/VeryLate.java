package billing;

public class VeryLate extends Late {}
