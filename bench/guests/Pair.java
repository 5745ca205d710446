/** Two fields, and a method that answers its argument. */
public class Pair implements Kind {
    int left;
    int right;

    public int same(int n) {
        return n;
    }
}
