import jk.Capability;
import jk.Remote;
import jk.Repository;

/** It revokes, unbinds and binds over what isn't its own. */
public class Thief implements Remote {
    public static void main(String[] args) {
        Capability shop = Repository.lookup("shop");
        Capability mine = Capability.create(new Thief());
        try {
            shop.revoke();
        } catch (SecurityException e) {
            System.out.println("not revoked");
        }
        try {
            Repository.unbind("shop");
        } catch (SecurityException e) {
            System.out.println("not unbound");
        }
        try {
            Repository.bind("shop", mine);
        } catch (IllegalArgumentException e) {
            System.out.println("not bound over");
        }
        try {
            Capability.create((Remote) (Object) shop);
        } catch (IllegalArgumentException e) {
            System.out.println("not wrapped");
        }
        System.out.println(Repository.lookup("shop") == shop);
    }
}
