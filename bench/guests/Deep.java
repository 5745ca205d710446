/** Calls itself until the stack ends, and prints how many calls there were. */
public class Deep {
    static int calls;

    public static void main(String[] words) {
        try {
            down();
        } catch (StackOverflowError end) {
            System.out.println(calls);
        }
    }

    static void down() {
        calls++;
        down();
    }
}
