import jk.Repository;
import jk.RemoteException;
import jk.RevokedException;

/** Gives jobs to plug-ins that it doesn't trust: its words are a name and a job, and so on. */
public class Host {
    public static void main(String[] words) {
        for (int i = 0; i + 1 < words.length; i += 2) {
            ask(words[i], words[i + 1]);
        }
    }

    static void ask(String name, String job) {
        Plugin plugin = (Plugin) Repository.lookup(name);
        if (plugin == null) {
            System.out.println("nobody is called " + name);
            return;
        }
        try {
            System.out.println("answer of " + name + ": " + plugin.work(job));
        } catch (OutOfMemoryError e) {
            System.out.println("no answer of " + name + ": its memory is used up");
        } catch (RevokedException e) {
            System.out.println("no answer of " + name + ": it is gone");
        } catch (RemoteException e) {
            System.out.println("no answer of " + name + ": it failed");
        }
    }
}
