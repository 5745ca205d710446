package jk;

/** A quota doesn't allow it: of the callee's heap or stack at a call, of capabilities at create, of names at bind. */
public class QuotaException extends RemoteException {
    public QuotaException() {
    }

    public QuotaException(String message) {
        super(message);
    }
}
