/** What a plug-in does for the host. */
public interface Plugin extends jk.Remote {
    String work(String job) throws jk.RemoteException;
}
