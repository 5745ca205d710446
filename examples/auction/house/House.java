import jk.Capability;
import jk.RemoteException;
import jk.Repository;
import jk.RevokedException;

/** An auction house. */
public class House implements Auction {
    static Offer best;
    static Bidder[] bidders = new Bidder[10];
    static int count;

    /** Without words it opens the auction; with one it closes it. */
    public static void main(String[] words) {
        if (words.length == 0) {
            Repository.bind("auction", Capability.create(new House()));
        } else {
            close();
        }
    }

    public boolean offer(Offer offer, Bidder bidder) {
        System.out.println("offer of " + offer.name + ": " + offer.amount);
        bidders[count] = bidder;
        count++;
        if (best != null && best.amount >= offer.amount) {
            return false;
        }
        best = offer;
        return true;
    }

    static void close() {
        for (int i = 0; i < count; i++) {
            try {
                bidders[i].hear(best.name, best.amount);
            } catch (RevokedException e) {
                System.out.println("a bidder is gone");
            } catch (RemoteException e) {
                System.out.println("a bidder failed");
            }
        }
        System.out.println("sold to " + best.name + " for " + best.amount);
    }
}
