/** The loop of bench/guests/L.java as often as the word says, for other machines that run class files. */
public class Sum {
    public static void main(String[] words) {
        int limit = Integer.parseInt(words[0]);
        int sum = 0;
        for (int n = 0; n < limit; n++) {
            sum = sum * 31 + n;
        }
        System.out.println(sum);
    }
}
