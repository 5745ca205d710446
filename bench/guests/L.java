/** Sums in a loop of ten instructions, forever as far as any bench lets it run. */
public class L {
    public static void main(String[] words) {
        int sum = 0;
        for (int n = 0; n < 2000000000; n++) {
            sum = sum * 31 + n;
        }
        System.out.println(sum);
    }
}
