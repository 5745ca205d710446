/** Shapes of several classes behind one interface, sorted by an order that is handed in. */
public class Drawing {
    public static void main(String[] words) {
        Shape[] shapes = {new Square(4), new Rectangle(2, 7), new Triangle(6, 3), new Square(1)};
        final int[] compared = {0};
        sort(shapes, new Order() {
            public boolean isBefore(Shape a, Shape b) {
                compared[0]++;
                return a.area() < b.area();
            }
        });
        for (int i = 0; i < shapes.length; i++) {
            StringBuffer line = new StringBuffer();
            line.append(shapes[i].name()).append(" of ").append(shapes[i].area());
            if (shapes[i] instanceof Square) {
                line.append(", side ").append(((Square) shapes[i]).side());
            }
            System.out.println(line.toString());
        }
        System.out.println("compared " + compared[0] + " times, made " + Rectangle.made);
    }

    /** Sorts by insertion. */
    private static void sort(Shape[] shapes, Order order) {
        for (int i = 1; i < shapes.length; i++) {
            for (int k = i; k > 0 && order.isBefore(shapes[k], shapes[k - 1]); k--) {
                Shape other = shapes[k];
                shapes[k] = shapes[k - 1];
                shapes[k - 1] = other;
            }
        }
    }
}
