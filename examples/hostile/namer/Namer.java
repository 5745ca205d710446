import jk.Capability;
import jk.QuotaException;
import jk.Remote;
import jk.Repository;

/** It binds names to its last one. One that is bound anew takes no other, and one that is unbound makes room for one. */
public class Namer implements Remote {
    public static void main(String[] args) {
        Capability mine = Capability.create(new Namer());
        int bound = 0;
        try {
            while (true) {
                Repository.bind("mine" + bound, mine);
                bound++;
            }
        } catch (Exception e) {
            if (e instanceof QuotaException) {
                System.out.println(bound);
            }
        }
        Repository.bind("mine0", mine);
        Repository.unbind("mine1");
        Repository.bind("another", mine);
        try {
            Repository.bind("one more", mine);
        } catch (Exception e) {
            if (e instanceof QuotaException) {
                System.out.println("no more");
            }
        }
    }
}
