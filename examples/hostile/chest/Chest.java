import jk.Capability;
import jk.Domain;
import jk.Repository;

/** It keeps what it gets, for whoever asks. */
public class Chest implements Keep {
    public int keep(Object o) {
        return 1;
    }

    public int free() {
        return Domain.freeWords();
    }

    public static void main(String[] args) {
        Repository.bind("chest", Capability.create(new Chest()));
    }
}
