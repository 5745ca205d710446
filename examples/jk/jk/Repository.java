package jk;

/** Names for capabilities, which all domains share. */
public class Repository {
    private Repository() {
    }

    /**
     * Gives a capability a name. One's own name is bound anew.
     * NullPointerException: at null. IllegalArgumentException: at a name of over 64 characters, or one that another domain has bound.
     * QuotaException: where the domain has as many other names as its option `names` allows.
     */
    public static void bind(String name, Capability capability) {
        throw new Error();
    }

    /**
     * The capability of this name; null where it has none.
     * NullPointerException: at null.
     */
    public static Capability lookup(String name) {
        throw new Error();
    }

    /**
     * Takes the name away. It changes nothing where nothing has the name.
     * NullPointerException: at null. SecurityException: at a name that another domain has bound.
     */
    public static void unbind(String name) {
        throw new Error();
    }
}
