import jk.Domain;
import jk.NotCopiableException;
import jk.Repository;

/** It sends a chain whose last object may not be copied, over and over, and then the same chain without it. */
public class Chain {
    public static void main(String[] args) throws Exception {
        Keep chest = (Keep) Repository.lookup("chest");
        Link first = new Link();
        Link link = first;
        for (int i = 1; i < 1000; i++) {
            link.next = new Link();
            link = link.next;
        }
        link.last = new Chain();
        int own = Domain.freeWords();
        int others = chest.free();
        int refused = 0;
        for (int i = 0; i < 20; i++) {
            try {
                chest.keep(first);
            } catch (NotCopiableException e) {
                refused++;
            }
        }
        System.out.println(refused);
        System.out.println(own - Domain.freeWords());
        System.out.println(others - chest.free());
        link.last = null;
        System.out.println(chest.keep(first));
        System.out.println(others - chest.free());
    }
}
