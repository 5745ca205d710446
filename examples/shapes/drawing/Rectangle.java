class Rectangle implements Shape {
    /** How many were made, squares too. */
    static int made;

    protected final int width;
    private final int height;

    Rectangle(int width, int height) {
        this.width = width;
        this.height = height;
        made++;
    }

    public int area() {
        return width * height;
    }

    public String name() {
        return "rectangle";
    }
}
