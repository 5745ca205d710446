import jk.Capability;
import jk.RemoteException;
import jk.Repository;

/** One of six: it calls the next, and the last one throws. */
public class Faller6 implements Turn {
    public int turn(int n) throws RemoteException {
        Fall fall = new Fall();
        if (n == 1) {
            fall.what = new Faller6();
        }
        throw fall;
    }

    public static void main(String[] args) {
        Repository.bind("fall6", Capability.create(new Faller6()));
    }
}
