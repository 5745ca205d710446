public class Tock {
    public static void main(String[] words) {
        for (int n = 1; n <= 3; n++) {
            System.out.println(-n);
        }
    }
}
