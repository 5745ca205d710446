/** Pages that may be read. */
public interface Archive extends jk.Remote {
    String page(int number) throws jk.RemoteException;
}
