/** Where offers are made. */
public interface Auction extends jk.Remote {
    /** Whether it is the best offer so far. The bidder is told at the end who gets it. */
    boolean offer(Offer offer, Bidder bidder) throws jk.RemoteException;
}
