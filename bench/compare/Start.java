/** Loads, verifies and initialises so many of the classes M001, M002 and so on, for a virtual machine that starts with them. */
public class Start {
    public static void main(String[] words) throws ClassNotFoundException {
        int count = Integer.parseInt(words[0]);
        for (int i = 1; i <= count; i++) {
            Class.forName("M" + String.valueOf(1000 + i).substring(1));
        }
    }
}
