/** What `Ops` calls through an interface. */
public interface Kind {
    int same(int n);
}
