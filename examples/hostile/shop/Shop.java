import jk.Remote;
import jk.RemoteException;

public interface Shop extends Remote {
    int twice(int n) throws RemoteException;

    int free() throws RemoteException;
}
