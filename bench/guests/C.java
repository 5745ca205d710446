/** Calls a method of two instructions in a loop of seven more. */
public class C {
    public static void main(String[] words) {
        int sum = 0;
        for (int n = 0; n < 2000000000; n++) {
            sum = next(sum);
        }
        System.out.println(sum);
    }

    static int next(int n) {
        return n;
    }
}
