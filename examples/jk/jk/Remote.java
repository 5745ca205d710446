package jk;

/**
 * What a class implements whose objects may be called from other domains. An interface below it is remote: each of its methods says that
 * it throws RemoteException.
 */
public interface Remote {
}
