import jk.Capability;
import jk.NotCopiableException;
import jk.RemoteException;
import jk.Repository;

/** A bidder that cheats, or tries to. */
public class Sly implements Bidder {
    public static void main(String[] words) throws RemoteException {
        Auction auction = (Auction) Repository.lookup("auction");
        Bidder me = (Bidder) Capability.create(new Sly());
        Offer offer = new Offer("sly", 70);
        System.out.println("mine is the best so far: " + auction.offer(offer, me));
        // The house has a copy: this changes nothing there.
        offer.amount = 1;
        try {
            auction.offer(new Trick(), me);
        } catch (NotCopiableException e) {
            System.out.println("my own class doesn't get into the house");
        }
        try {
            ((Capability) auction).revoke();
        } catch (SecurityException e) {
            System.out.println("I can't revoke what the house owns");
        }
        try {
            Repository.bind("auction", (Capability) me);
        } catch (IllegalArgumentException e) {
            System.out.println("I can't take the house's name");
        }
        try {
            Repository.unbind("auction");
        } catch (SecurityException e) {
            System.out.println("nor take it away");
        }
    }

    public void hear(String winner, int amount) {
        System.out.println("I hear: " + winner + " for " + amount);
    }

    /** An offer with code of its own. */
    static class Trick extends Offer {
        Trick() {
            super("sly", 1000);
        }
    }
}
