import jk.RemoteException;
import jk.Repository;
import jk.RevokedException;

/** Reads in the archive by what the visitor lent. */
public class Friend {
    public static void main(String[] words) throws RemoteException {
        Archive archive = (Archive) Repository.lookup("lent");
        try {
            System.out.println("page 1: " + archive.page(1));
        } catch (RevokedException e) {
            System.out.println("page 1: no longer");
        }
    }
}
