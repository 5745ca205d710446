import jk.Capability;
import jk.Domain;
import jk.Repository;

/** It does its work for anyone, and keeps nothing. */
public class Keeper implements Shop {
    public int twice(int n) {
        return n * 2;
    }

    public int free() {
        return Domain.freeWords();
    }

    public static void main(String[] args) {
        Repository.bind("shop", Capability.create(new Keeper()));
    }
}
