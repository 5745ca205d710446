/** Prints a text that looks like two lines of the output, and one that is a line. */
public class Escapes {
    public static void main(String[] words) {
        System.out.println("x\nb: y\\");
        System.out.println("and one more line");
    }
}
