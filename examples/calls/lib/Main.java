import jk.Capability;
import jk.Repository;

public class Main implements Adder {
    public static void main(String[] words) {
        Repository.bind("adder", Capability.create(new Main()));
    }

    public int add(int[] numbers) {
        int sum = numbers[0] + numbers[1];
        numbers[0] = 0;
        return sum;
    }
}
