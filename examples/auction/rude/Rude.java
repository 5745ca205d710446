import jk.Capability;
import jk.Domain;
import jk.RemoteException;
import jk.Repository;

/** A bidder that ends its domain while the house speaks to it. */
public class Rude implements Bidder {
    public static void main(String[] words) throws RemoteException {
        Auction auction = (Auction) Repository.lookup("auction");
        Bidder me = (Bidder) Capability.create(new Rude());
        System.out.println("mine is the best so far: " + auction.offer(new Offer("rude", 60), me));
    }

    public void hear(String winner, int amount) {
        Domain.terminate();
    }
}
