import jk.RemoteException;
import jk.Repository;

/** It gets what is thrown through six domains, twice: once as it is, and once in what can't pass. */
public class Thrower {
    public static void main(String[] args) throws Exception {
        Turn first = (Turn) Repository.lookup("fall1");
        for (int n = 0; n < 2; n++) {
            try {
                first.turn(n);
            } catch (Fall e) {
                System.out.println("fall");
            } catch (RemoteException e) {
                System.out.println("remote");
            }
        }
    }
}
