class Triangle implements Shape {
    private final int base;
    private final int height;

    Triangle(int base, int height) {
        this.base = base;
        this.height = height;
    }

    public int area() {
        return base * height / 2;
    }

    public String name() {
        return "triangle";
    }
}
