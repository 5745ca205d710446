import jk.Capability;
import jk.RemoteException;
import jk.Repository;
import jk.RevokedException;

/** Reads in the archive, and hands its way to it on. */
public class Visitor {
    static Archive archive;

    /** Each word is `enter`, `lend`, `revoke`, or the number of a page to read. */
    public static void main(String[] words) throws RemoteException {
        for (int i = 0; i < words.length; i++) {
            String word = words[i];
            if (word.equals("enter")) {
                archive = ((Desk) Repository.lookup("desk")).enter();
            } else if (word.equals("lend")) {
                Repository.bind("lent", (Capability) archive);
            } else if (word.equals("revoke")) {
                revoke();
            } else {
                read(Integer.parseInt(word));
            }
        }
    }

    static void revoke() {
        try {
            ((Capability) archive).revoke();
        } catch (SecurityException e) {
            System.out.println("who has it on loan can't revoke it");
        }
    }

    static void read(int number) throws RemoteException {
        try {
            System.out.println("page " + number + ": " + archive.page(number));
        } catch (RevokedException e) {
            System.out.println("page " + number + ": no longer");
        }
    }
}
