/** Takes 21,000 steps and more to initialise. */
public class Slow {
    static int answer;

    static {
        for (int n = 0; n < 3000; n++) {
            answer = n;
        }
    }
}
