import jk.Capability;
import jk.Repository;

/** A plug-in that never comes back from a hard job. */
public class Main implements Plugin {
    public static void main(String[] words) {
        Repository.bind("moody", Capability.create(new Main()));
    }

    public String work(String job) {
        while (job.equals("hard")) {
        }
        return "done at last: " + job;
    }
}
