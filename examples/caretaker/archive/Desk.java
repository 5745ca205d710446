/** Where a visitor gets a way to the archive. */
public interface Desk extends jk.Remote {
    Archive enter() throws jk.RemoteException;
}
