interface Shape {
    int area();

    String name();
}
