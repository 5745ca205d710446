/** Takes what it is given and keeps nothing of it. Words: how many capabilities it makes, of which the first is bound. */
public class Taker implements Takes {
    public void nothing() {
    }

    public int three(int a, int b, int c) {
        return a;
    }

    public void take(Object o) {
    }

    public static void main(String[] words) {
        int count = Integer.parseInt(words[0]);
        Taker taker = new Taker();
        jk.Repository.bind("taker", jk.Capability.create(taker));
        for (int i = 1; i < count; i++) {
            jk.Capability.create(taker);
        }
        System.out.println("made " + count);
    }
}
