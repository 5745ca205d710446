/** Prints ten lines, one of them twice. */
public class Ten {
    public static void main(String[] words) {
        System.out.println("one: a domain has a folder of its own");
        System.out.println("two: a thread starts at a main");
        System.out.println("three: a step is one instruction");
        System.out.println("four: a line goes out when it is complete");
        System.out.println("five: a literal may be used again");
        System.out.println("five: a literal may be used again");
        System.out.println("seven: this class file has more than 512 bytes");
        System.out.println("eight: its folder is read once");
        System.out.println("nine:");
        System.out.println("");
    }
}
