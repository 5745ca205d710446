import jk.Capability;
import jk.Repository;

/** Gives each visitor a caretaker, and takes it back when the visit is over. */
public class Office implements Desk {
    static String[] pages = {"how it began", "what came of it"};
    static Capability[] visits = new Capability[10];
    static int count;

    /** Without words it opens the desk; a word is the number of a visit that is over. */
    public static void main(String[] words) {
        if (words.length == 0) {
            Repository.bind("desk", Capability.create(new Office()));
        } else {
            visits[Integer.parseInt(words[0])].revoke();
            System.out.println("visit " + words[0] + " is over");
        }
    }

    public Archive enter() {
        Capability visit = Capability.create(new Caretaker(pages));
        visits[count] = visit;
        count++;
        return (Archive) visit;
    }
}
