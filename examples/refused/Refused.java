// Programs that are refused, each in a folder of its own. output.txt has the line for each, in the order of this file: the rule that
// is broken first, the file, and where in it. 0 is the class itself; fields and then methods count from 1; for a reference it is its
// place in the constant pool.

/** Needs floating point, in its second method. The first is the constructor. */
class UsesFloats {
    static float half(float x) {
        return x / 2;
    }
}

/** Takes a lock, in its second method. */
class TakesALock {
    static synchronized void lock() {}
}

/** Names a class that neither the folder nor the system has. */
class NamesAMissingClass {
    public static void main(String[] words) {
        java.util.Collections.emptyList();
    }
}

/** Calls print, which the PrintStream here doesn't have. */
class CallsPrint {
    public static void main(String[] words) {
        System.out.print("Hello");
    }
}

/** A remote interface of which a method doesn't say that it throws RemoteException. */
interface IsSilent extends jk.Remote {
    int count();
}
