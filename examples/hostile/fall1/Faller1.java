import jk.Capability;
import jk.RemoteException;
import jk.Repository;

/** One of six: it calls the next, and the last one throws. */
public class Faller1 implements Turn {
    public int turn(int n) throws RemoteException {
        Turn next = (Turn) Repository.lookup("fall2");
        return next.turn(n);
    }

    public static void main(String[] args) {
        Repository.bind("fall1", Capability.create(new Faller1()));
    }
}
