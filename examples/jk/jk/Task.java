package jk;

/**
 * What a thread does in one domain, between a call that enters the domain and the return from it. It acts on that alone, wherever the
 * thread is meanwhile, and changes nothing once that is over.
 */
public class Task {
    private Task() {
    }

    /** The one that is running. OutOfMemoryError: where the object doesn't fit the domain's heap. */
    public static Task current() {
        throw new Error();
    }

    /** It takes no step from now on, when its turn comes, until it is resumed. It raises nothing. */
    public void suspend() {
        throw new Error();
    }

    /** It takes steps again. It raises nothing. */
    public void resume() {
        throw new Error();
    }

    /** ThreadDeath is raised in it, in its next step. It raises nothing here. */
    public void stop() {
        throw new Error();
    }
}
