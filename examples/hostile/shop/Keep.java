import jk.Remote;
import jk.RemoteException;

public interface Keep extends Remote {
    int keep(Object o) throws RemoteException;

    int free() throws RemoteException;
}
