interface Order {
    boolean isBefore(Shape a, Shape b);
}
