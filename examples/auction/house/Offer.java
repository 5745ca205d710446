import java.io.Serializable;

/** An offer. It goes to another domain as a copy. */
public class Offer implements Serializable {
    public String name;
    public int amount;

    public Offer(String name, int amount) {
        this.name = name;
        this.amount = amount;
    }
}
