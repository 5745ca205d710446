class Square extends Rectangle {
    Square(int side) {
        super(side, side);
    }

    int side() {
        return width;
    }

    public String name() {
        return "square";
    }
}
