import jk.Domain;
import jk.Repository;

/** It asks the shop, and prints what both of them lost of their words since it asked last: 4 for its own array of words, and nothing. */
public class Client {
    static Shop shop;
    static int own;
    static int others;

    public static void main(String[] args) throws Exception {
        if (shop == null) {
            shop = (Shop) Repository.lookup("shop");
            own = Domain.freeWords() + 4;
            others = shop.free();
        }
        System.out.println(shop.twice(21));
        System.out.println(own - Domain.freeWords());
        System.out.println(others - shop.free());
        own = Domain.freeWords();
        others = shop.free();
    }
}
