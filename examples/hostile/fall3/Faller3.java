import jk.Capability;
import jk.RemoteException;
import jk.Repository;

/** One of six: it calls the next, and the last one throws. */
public class Faller3 implements Turn {
    public int turn(int n) throws RemoteException {
        Turn next = (Turn) Repository.lookup("fall4");
        return next.turn(n);
    }

    public static void main(String[] args) {
        Repository.bind("fall3", Capability.create(new Faller3()));
    }
}
