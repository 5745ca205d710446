import jk.Capability;
import jk.QuotaException;
import jk.Remote;

/** It makes capabilities to its last number, revokes each, and asks for more. */
public class Maker implements Remote {
    public static void main(String[] args) {
        Remote target = new Maker();
        for (int turn = 0; turn < 2; turn++) {
            int made = 0;
            try {
                while (true) {
                    Capability.create(target).revoke();
                    made++;
                }
            } catch (Exception e) {
                if (e instanceof QuotaException) {
                    System.out.println(made);
                }
            }
        }
    }
}
