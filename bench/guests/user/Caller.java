/**
 * Calls an object of another domain, or one of its own, again and again. Words: "lib" or "own"; what it does in each turn of a
 * loop; of which size; how many turns. Ten times in a turn it does nothing but copy a local ("idle"), calls without arguments
 * ("nothing"), or with three numbers ("three"); or else once in a turn it hands over an object.
 */
public class Caller implements Takes {
    public void nothing() {
    }

    public int three(int a, int b, int c) {
        return a;
    }

    public void take(Object o) {
    }

    static void idle(Takes whom, int turns) {
        Takes other = whom;
        for (int i = 0; i < turns; i++) {
            other = whom;
            other = whom;
            other = whom;
            other = whom;
            other = whom;
            other = whom;
            other = whom;
            other = whom;
            other = whom;
            other = whom;
        }
    }

    static void nothing(Takes whom, int turns) throws jk.RemoteException {
        for (int i = 0; i < turns; i++) {
            whom.nothing();
            whom.nothing();
            whom.nothing();
            whom.nothing();
            whom.nothing();
            whom.nothing();
            whom.nothing();
            whom.nothing();
            whom.nothing();
            whom.nothing();
        }
    }

    static void three(Takes whom, int turns) throws jk.RemoteException {
        for (int i = 0; i < turns; i++) {
            whom.three(1, 2, 3);
            whom.three(1, 2, 3);
            whom.three(1, 2, 3);
            whom.three(1, 2, 3);
            whom.three(1, 2, 3);
            whom.three(1, 2, 3);
            whom.three(1, 2, 3);
            whom.three(1, 2, 3);
            whom.three(1, 2, 3);
            whom.three(1, 2, 3);
        }
    }

    /** A ring of so many objects. */
    static Object ring(int size) {
        Node first = new Node();
        Node last = first;
        for (int i = 1; i < size; i++) {
            Node one = new Node();
            one.next = last;
            last = one;
        }
        first.next = last;
        return first;
    }

    /** One object named so many times. */
    static Object one(int size) {
        Object[] items = new Object[size];
        items[0] = new Node();
        int full = 1;
        while (full < size) {
            int more = full;
            if (size - full < more) {
                more = size - full;
            }
            System.arraycopy(items, 0, items, full, more);
            full = full + more;
        }
        return items;
    }

    /** A text of so many units. */
    static Object text(int size) {
        String text = "x";
        while (text.length() < size) {
            text = text.concat(text);
        }
        return text.substring(0, size);
    }

    static Object made(String shape, int size) {
        if (shape.equals("ring")) {
            return ring(size);
        }
        if (shape.equals("one")) {
            return one(size);
        }
        if (shape.equals("text")) {
            return text(size);
        }
        if (shape.equals("ints")) {
            return new int[size];
        }
        return new Object[size];
    }

    public static void main(String[] words) throws jk.RemoteException {
        Takes whom = new Caller();
        if (words[0].equals("lib")) {
            whom = (Takes) jk.Repository.lookup("taker");
        }
        String what = words[1];
        int size = Integer.parseInt(words[2]);
        int turns = Integer.parseInt(words[3]);
        if (what.equals("idle")) {
            idle(whom, turns);
        } else if (what.equals("nothing")) {
            nothing(whom, turns);
        } else if (what.equals("three")) {
            three(whom, turns);
        } else {
            Object o = made(what, size);
            for (int i = 0; i < turns; i++) {
                whom.take(o);
            }
        }
        System.out.println("did " + what + " " + turns);
    }
}
