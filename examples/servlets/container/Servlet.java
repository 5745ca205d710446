/** What answers requests. */
public interface Servlet extends jk.Remote {
    String service(String request) throws jk.RemoteException;
}
