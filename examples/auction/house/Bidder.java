/** Who is told how the auction ended. */
public interface Bidder extends jk.Remote {
    void hear(String winner, int amount) throws jk.RemoteException;
}
