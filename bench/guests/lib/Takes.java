/** What a domain takes from another: nothing, three numbers, or an object with all to which it leads. */
public interface Takes extends jk.Remote {
    void nothing() throws jk.RemoteException;

    int three(int a, int b, int c) throws jk.RemoteException;

    void take(Object o) throws jk.RemoteException;
}
