import jk.Capability;
import jk.NotCopiableException;
import jk.RemoteException;
import jk.Repository;
import jk.RevokedException;

/** A container of servlets, each of which runs in a domain of its own. */
public class Server implements Container {
    static String[] paths = new String[10];
    static Servlet[] servlets = new Servlet[10];
    static int count;

    /** Without words it opens the container; else it serves a request for each word. */
    public static void main(String[] words) {
        if (words.length == 0) {
            Repository.bind("container", Capability.create(new Server()));
        }
        for (int i = 0; i < words.length; i++) {
            System.out.println(words[i].concat(" -> ").concat(serve(words[i])));
        }
    }

    public boolean register(String path, Servlet servlet) {
        if (find(path) >= 0 || count == paths.length) {
            return false;
        }
        paths[count] = path;
        servlets[count] = servlet;
        count++;
        return true;
    }

    static int find(String path) {
        for (int i = 0; i < count; i++) {
            if (paths[i].equals(path)) {
                return i;
            }
        }
        return -1;
    }

    static String serve(String request) {
        int at = find(request);
        if (at < 0) {
            return "404";
        }
        try {
            return "200 " + servlets[at].service(request);
        } catch (RevokedException e) {
            return "503 the servlet's domain is gone";
        } catch (NotCopiableException e) {
            return "500 the answer can't be copied";
        } catch (RemoteException e) {
            return "500 an exception of the servlet's own";
        } catch (RuntimeException e) {
            return "500 " + e.getMessage();
        }
    }
}
