import jk.Capability;
import jk.Repository;

/** A plug-in that does its jobs. */
public class Main implements Plugin {
    public static void main(String[] words) {
        Repository.bind("good", Capability.create(new Main()));
    }

    public String work(String job) {
        return "done: " + job;
    }
}
