/** An object of a ring: it names the next one, and has a number. */
public class Node implements java.io.Serializable {
    public Node next;
    public int number;
}
