/** Prints one line. */
public class Hello {
    public static void main(String[] words) {
        System.out.println("Hello");
    }
}
