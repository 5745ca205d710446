import jk.Capability;
import jk.QuotaException;
import jk.RemoteException;

/** It calls itself by its own capability, over and over, to the last chunk. */
public class Circle implements Turn {
    static Turn self;

    public int turn(int n) throws RemoteException {
        try {
            return self.turn(n + 1);
        } catch (QuotaException e) {
            return n;
        }
    }

    public static void main(String[] args) throws Exception {
        Capability mine = Capability.create(new Circle());
        self = (Turn) (Object) mine;
        System.out.println(self.turn(1));
        System.out.println(self.turn(1));
    }
}
