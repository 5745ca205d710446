/**
 * Makes a text of an "x" times five, as often as the second word says, and doubled, as often as the third says. Then it does what
 * the first word says, as often as the fourth does, and prints how long the last text is and how it ends.
 */
public class Texts {
    public static void main(String[] words) {
        String name = words[0];
        String text = "x";
        for (int n = Integer.parseInt(words[1]); n > 0; n--) {
            String two = text.concat(text);
            text = two.concat(two).concat(text);
        }
        for (int n = Integer.parseInt(words[2]); n > 0; n--) {
            text = text.concat(text);
        }
        String last = text;
        for (int n = Integer.parseInt(words[3]); n > 0; n--) {
            if (name.equals("append")) {
                last = new StringBuffer(text).append("y").toString();
            } else {
                last = "z" + text;
            }
        }
        System.out.println(last.length());
        System.out.println(last.charAt(0));
        System.out.println(last.charAt(last.length() - 1));
    }
}
