import java.io.Serializable;

public class Link implements Serializable {
    public Link next;
    public Object last;
}
