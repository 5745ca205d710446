import jk.RemoteException;
import jk.Repository;

public class Main {
    public static void main(String[] words) throws RemoteException {
        Adder adder = (Adder) Repository.lookup("adder");
        int[] numbers = {1, 2};
        System.out.println(adder.add(numbers));
        System.out.println(numbers[0]);
    }
}
