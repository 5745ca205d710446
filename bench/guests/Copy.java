/**
 * Copies an array onto itself, one place further. Words: ints or texts, how many items, how often. It prints the last item, which
 * is 0 or null before the first copy.
 */
public class Copy {
    public static void main(String[] words) {
        String name = words[0];
        int length = Integer.parseInt(words[1]);
        int times = Integer.parseInt(words[2]);
        if (name.equals("ints")) {
            int[] items = new int[length];
            items[length - 2] = 7;
            for (int n = 0; n < times; n++) {
                System.arraycopy(items, 0, items, 1, length - 1);
            }
            System.out.println(items[length - 1]);
        } else {
            Object[] items = new String[length];
            items[0] = name;
            int full = 1;
            while (full < length / 2) {
                System.arraycopy(items, 0, items, full, full);
                full = full * 2;
            }
            System.arraycopy(items, 0, items, full, length - full - 1);
            for (int n = 0; n < times; n++) {
                System.arraycopy(items, 0, items, 1, length - 1);
            }
            System.out.println((String) items[length - 1]);
        }
    }
}
