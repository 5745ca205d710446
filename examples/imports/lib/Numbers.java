public class Numbers {
    public static int square(int n) {
        return n * n;
    }
}
