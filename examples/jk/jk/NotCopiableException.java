package jk;

/** An argument of a call, or its result, reaches an object that may not be copied to the other domain. */
public class NotCopiableException extends RemoteException {
    public NotCopiableException() {
    }

    public NotCopiableException(String message) {
        super(message);
    }
}
