import jk.Capability;
import jk.Repository;

/** A plug-in that takes all the memory it can get. What it gets is its own domain's alone. */
public class Main implements Plugin {
    static Object[] last;

    public static void main(String[] words) {
        Repository.bind("greedy", Capability.create(new Main()));
    }

    public String work(String job) {
        while (true) {
            Object[] next = new Object[1000];
            next[0] = last;
            last = next;
        }
    }
}
