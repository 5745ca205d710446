/**
 * Fills the heap and asks for more. Words: how many arrays of one item it makes, how many items one more array has, and how often
 * it asks then. It prints how often there was no room.
 */
public class Full {
    public static void main(String[] words) {
        String word = words[0];
        StringBuffer buffer = new StringBuffer();
        int times = Integer.parseInt(words[2]);
        int[][] arrays = new int[Integer.parseInt(words[0])][1];
        int[] rest = new int[Integer.parseInt(words[1])];
        rest[0] = 1;
        int full = 0;
        for (int n = 0; n < times; n++) {
            try {
                ask(n % 10, word, buffer, arrays, null);
            } catch (OutOfMemoryError none) {
                full++;
            }
        }
        System.out.println(full);
    }

    static Object ask(int which, String word, StringBuffer buffer, int[][] arrays, int[] none) {
        switch (which) {
            case 0: return new Object();
            case 1: return new int[0];
            case 2: return new Object[3];
            case 3: return new int[1][1];
            case 4: return "a literal";
            case 5: return word.concat(word);
            case 6: return buffer.append(which);
            case 7: return word.substring(0, 0);
            case 8: arrays[0][0] = 1 / (which - 8); return null;
            default: none[0] = which; return null;
        }
    }
}
