public class Secret {
    public static int number() {
        return 7;
    }
}
