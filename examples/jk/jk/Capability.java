package jk;

/**
 * A way to call one object of a domain from any other. It is of each remote interface that the object's class has: a domain that knows the
 * interface casts a capability to it and calls its methods. A call runs in the owner's domain, on copies of its arguments, and its result or
 * throwable comes back as a copy. Capabilities alone pass as themselves.
 *
 * <p>A call raises, the first that applies: RevokedException where the capability was revoked or its owner has ended;
 * IncompatibleClassChangeError where it hasn't the interface; AbstractMethodError where the object's class has no such method with code;
 * IllegalAccessError where that method isn't public; NotCopiableException where an object that the arguments reach may not be copied;
 * QuotaException where the copies, or the call's frame, don't fit the owner's quotas.
 */
public abstract class Capability {
    private Capability() {
    }

    /**
     * A new capability of an object of the running domain.
     * NullPointerException: at null. IllegalArgumentException: at a capability, or at an object that isn't a Remote.
     * QuotaException: where the domain has made as many as its option `caps` allows.
     */
    public static Capability create(Remote target) {
        throw new Error();
    }

    /**
     * From now on each call of it raises RevokedException. A call that has entered goes on. A second revocation changes nothing.
     * SecurityException: where the running domain isn't the owner.
     */
    public final void revoke() {
        throw new Error();
    }
}
