/** Needs a class that takes long to initialise. */
public class Waits {
    public static void main(String[] words) {
        System.out.println(Slow.answer);
    }
}
