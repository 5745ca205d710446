package jk;

/** The domain in which the caller runs. */
public class Domain {
    private Domain() {
    }

    /** Its name, as a new text. OutOfMemoryError: where the text doesn't fit its heap. */
    public static String name() {
        throw new Error();
    }

    /** How many words of its heap are free. It raises nothing. */
    public static int freeWords() {
        throw new Error();
    }

    /** Ends it. It doesn't return: whoever called into the domain gets RevokedException. */
    public static void terminate() {
        throw new Error();
    }
}
