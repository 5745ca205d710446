/** Works out each sum that it is started with, and says why a text is none. */
public class Calculator {
    public static void main(String[] words) {
        for (int i = 0; i < words.length; i++) {
            show(words[i]);
        }
    }

    private static void show(String word) {
        try {
            int value = new Sum(word).value();
            System.out.println("the value of " + word + " is " + value);
        } catch (SyntaxException e) {
            System.out.println("no sum: " + e.getMessage() + " at place " + e.place);
        } catch (ArithmeticException e) {
            System.out.println("the value of " + word + " is none");
        }
    }
}
