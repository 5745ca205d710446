import jk.Capability;
import jk.NotCopiableException;
import jk.RemoteException;
import jk.Repository;
import jk.Task;

/** It tries to hand a Task to others: as an argument, within one, as an answer, and in a throwable. */
public class Lender implements Keep, Turn {
    static Object kept;

    public int keep(Object o) {
        kept = o;
        return 1;
    }

    public int free() {
        return 0;
    }

    public int turn(int n) {
        Fall fall = new Fall();
        fall.what = Task.current();
        throw fall;
    }

    static void lend(Keep keep, Object o) throws RemoteException {
        try {
            keep.keep(o);
            System.out.println("handed on");
        } catch (NotCopiableException e) {
            System.out.println("kept here");
        }
    }

    public static void main(String[] args) throws Exception {
        Keep chest = (Keep) Repository.lookup("chest");
        Task task = Task.current();
        Link link = new Link();
        link.last = task;
        lend(chest, task);
        lend(chest, new Object[] { new Object[] { task } });
        lend(chest, link);
        Object own = Capability.create(new Lender());
        lend((Keep) own, task);
        try {
            ((Turn) own).turn(0);
        } catch (Fall e) {
            System.out.println("handed on");
        } catch (RemoteException e) {
            System.out.println("kept here");
        }
        System.out.println(kept == null);
    }
}
