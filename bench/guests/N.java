/** Ends at once. */
public class N {
    public static void main(String[] words) {}
}
