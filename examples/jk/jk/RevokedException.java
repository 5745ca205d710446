package jk;

/** The capability was revoked, or its owner has ended, before the call or while it ran. */
public class RevokedException extends RemoteException {
    public RevokedException() {
    }

    public RevokedException(String message) {
        super(message);
    }
}
