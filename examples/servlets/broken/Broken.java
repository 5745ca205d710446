import jk.Capability;
import jk.RemoteException;
import jk.Repository;

/** A servlet in which things go wrong. */
public class Broken implements Servlet {
    private final String path;

    Broken(String path) {
        this.path = path;
    }

    public static void main(String[] words) throws RemoteException {
        Container container = (Container) Repository.lookup("container");
        for (int i = 0; i < words.length; i++) {
            container.register(words[i], (Servlet) Capability.create(new Broken(words[i])));
        }
    }

    public String service(String request) {
        if (path.equals("/state")) {
            throw new IllegalStateException("out of order");
        }
        if (path.equals("/own")) {
            throw new Mishap();
        }
        int[] digits = new int[3];
        return "digit " + digits[3];
    }

    /** An exception that no other domain knows. */
    static class Mishap extends RuntimeException {
    }
}
