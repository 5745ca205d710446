public interface Adder extends jk.Remote {
    int add(int[] numbers) throws jk.RemoteException;
}
