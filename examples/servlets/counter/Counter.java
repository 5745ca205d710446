import jk.Capability;
import jk.RemoteException;
import jk.Repository;

/** A servlet that counts its requests. */
public class Counter implements Servlet {
    private int requests;

    public static void main(String[] words) throws RemoteException {
        Container container = (Container) Repository.lookup("container");
        System.out.println("/count is mine: " + container.register("/count", (Servlet) Capability.create(new Counter())));
    }

    public String service(String request) {
        requests++;
        return "request " + requests;
    }
}
