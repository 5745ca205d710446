/** Where a servlet asks for the requests of a path. */
public interface Container extends jk.Remote {
    /** Whether the path was free. */
    boolean register(String path, Servlet servlet) throws jk.RemoteException;
}
