import jk.Capability;
import jk.RemoteException;
import jk.Repository;

/** A servlet that greets. */
public class Hello implements Servlet {
    public static void main(String[] words) throws RemoteException {
        Container container = (Container) Repository.lookup("container");
        Servlet me = (Servlet) Capability.create(new Hello());
        System.out.println("/hello is mine: " + container.register("/hello", me));
        System.out.println("/count is mine: " + container.register("/count", me));
    }

    public String service(String request) {
        return "Hello from " + jk.Domain.name();
    }
}
