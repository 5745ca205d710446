import jk.Capability;
import jk.RemoteException;
import jk.Repository;

/** A bidder. */
public class Honest implements Bidder {
    public static void main(String[] words) throws RemoteException {
        Auction auction = (Auction) Repository.lookup("auction");
        Bidder me = (Bidder) Capability.create(new Honest());
        System.out.println("mine is the best so far: " + auction.offer(new Offer("honest", 50), me));
    }

    public void hear(String winner, int amount) {
        System.out.println("I hear: " + winner + " for " + amount);
    }
}
