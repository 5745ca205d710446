/** Takes all that its domain has, words and frames, and goes on. */
public class Greedy {
    static Object[] kept;
    static int depth;

    public static void main(String[] words) {
        int arrays = 0;
        try {
            while (true) {
                Object[] more = new Object[20];
                more[0] = kept;
                kept = more;
                arrays++;
            }
        } catch (OutOfMemoryError e) {
            System.out.println(arrays);
        }
        try {
            dive();
        } catch (StackOverflowError e) {
            System.out.println(depth);
        }
        while (true) {
            depth++;
        }
    }

    static void dive() {
        depth++;
        dive();
    }
}
