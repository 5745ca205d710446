/** Makes one object, and says what it holds. */
public class Modest {
    private final int number;

    Modest(int number) {
        this.number = number;
    }

    public static void main(String[] words) {
        System.out.println(new Modest(words.length).number);
    }
}
