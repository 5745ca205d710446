import jk.Remote;
import jk.RemoteException;

public interface Turn extends Remote {
    int turn(int n) throws RemoteException;
}
