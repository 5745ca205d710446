import jk.QuotaException;
import jk.Repository;

/** It fills the heap of a domain that keeps what it gets, to the last word. What it sends is small: it pays nothing. */
public class Filler {
    public static void main(String[] args) throws Exception {
        Keep chest = (Keep) Repository.lookup("chest");
        int calls = 0;
        for (int size = 96; size >= 0; size = size == 0 ? -1 : size / 2) {
            int[] sent = new int[size];
            try {
                while (true) {
                    chest.keep(sent);
                    calls++;
                }
            } catch (QuotaException e) {
            }
        }
        System.out.println(calls);
        System.out.println(chest.free());
        System.out.println(chest.keep(null));
    }
}
