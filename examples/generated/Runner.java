import java.io.OutputStream;
import java.io.PrintStream;
import java.lang.reflect.InvocationTargetException;

/**
 * Runs programs one after the other, each given as a package with a class M, and prints what jkernel prints of a domain of the package's name
 * that loads it and is started at M: one run for each.
 */
public class Runner {
    /** What a program prints: a line of its domain for each call. */
    private static class Lines extends PrintStream {
        private final PrintStream out;
        private final String domain;

        Lines(PrintStream out, String domain) {
            super(new OutputStream() {
                public void write(int b) {
                }
            });
            this.out = out;
            this.domain = domain;
        }

        public void println(String text) {
            String all = String.valueOf(text);
            StringBuffer line = new StringBuffer();
            for (int i = 0; i < all.length(); i++) {
                char c = all.charAt(i);
                if (c == '\\') {
                    line.append("\\\\");
                } else if (c >= 32 && c <= 126) {
                    line.append(c);
                } else {
                    line.append("\\u").append(Integer.toHexString(0x10000 + c).substring(1));
                }
            }
            out.println(domain + ": " + line);
        }

        public void println() {
            println("");
        }

        public void println(int number) {
            println(String.valueOf(number));
        }

        public void println(long number) {
            println(String.valueOf(number));
        }

        public void println(char c) {
            println(String.valueOf(c));
        }

        public void println(boolean truth) {
            println(String.valueOf(truth));
        }
    }

    private static String end(String program) throws Exception {
        try {
            Class.forName(program + ".M").getMethod("main", new Class[] {String[].class}).invoke(null, new Object[] {new String[0]});
            return "ended";
        } catch (InvocationTargetException e) {
            return "ended by " + e.getTargetException().getClass().getName().replace('.', '/');
        } catch (LinkageError e) {
            return "ended by " + e.getClass().getName().replace('.', '/');
        }
    }

    public static void main(String[] programs) throws Exception {
        PrintStream out = System.out;
        for (int i = 0; i < programs.length; i++) {
            out.println("* domain " + programs[i] + " loaded");
            out.println("* thread 1 started in " + programs[i]);
            System.setOut(new Lines(out, programs[i]));
            out.println("* thread 1 " + end(programs[i]));
        }
        System.setOut(out);
    }
}
