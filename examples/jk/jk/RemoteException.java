package jk;

/**
 * A call through a capability failed. It is raised by itself where the called method threw what may not be copied, or a ThreadDeath.
 */
public class RemoteException extends Exception {
    public RemoteException() {
    }

    public RemoteException(String message) {
        super(message);
    }
}
