package p23;

public class M {
    static int i0 = 8;
    static long l0 = 23637L;
    static int[] ia = {1, 2, 3, 4};
    static int[] ja = new int[5];
    static byte[] ba = {1, -1, 127, -128};
    static char[] ca = new char[4];
    static short[] ha = new short[4];
    static long[] la = new long[6];
    static A a0, a1;
    static I0 o0;
    static Object p0;
    static String s0 = "start";
    static A[] aa = new A[4];
    static A[] bb;
    static Object[] oa = new Object[4];
    static int[][] iia = new int[3][4];
    static StringBuffer sb = new StringBuffer();
    static int boom() {
        throw new E1("boom");
    }
    static int h0(int x, long y, Object p, int n) {
        if (n <= 0) return x;
        System.out.println((char) (97 + (M.s0.charAt(M.iia.length) & 15)));
        x >>= M.ba[(S1.T.length() * x)];
        S0.x = x;
        System.out.println(M.sb.length());
        return x;
    }
    static int h1(int x, long y, Object p, int n) {
        if (n <= 0) return x;
        System.out.println(M.i0);
        System.out.println((char) (97 + (M.a1.m0(x) & 15)));
        if ((x >= M.ca[2])) {
            switch (M.a1.fs & 7) {
                case 3: System.out.println(String.valueOf((M.l0 + M.l0)));
                break;
                case 100: M.aa[1] = M.a1;
                case 65536: ;
                default: System.out.println("d");
            }
        } else {
        }
        return M.i0;
    }
    static int h2(int x, long y, Object p, int n) {
        if (n <= 0) return x;
        if ((((Object) M.oa[3]) != (Object) p)) {
            System.out.println((((Object) p) instanceof int[]));
        } else {
        }
        I0 v8 = ((I1) (Object) M.s0);
        B.si2 += x;
        return (x << ((byte) x));
    }
    static void set() {
        a0 = new B(3);
        a1 = new D(5);
        o0 = new Q(6);
        p0 = a1;
        aa[0] = a0;
        aa[1] = a1;
        bb = new B[4];
        oa[0] = s0;
        oa[1] = ia;
        oa[2] = a0;
    }
    public static void main(String[] args) {
        int n = 3;
        try {
            set();
        } catch (Throwable t) {
            System.out.println("set");
        }
        try {
            System.out.println((((Object) M.o0) == (Object) M.a1.next));
        } catch (Throwable t) {
            System.out.println("T");
            if (t instanceof E0) System.out.println(t.getMessage());
        }
        String v9 = M.s0;
        try {
            System.arraycopy(M.la, (M.sb.length() ^ (M.i0 * M.i0)), M.oa, 1, M.iia[2][3]);
        } catch (Throwable t) {
            System.out.println("T");
            if (t instanceof E0) System.out.println(t.getMessage());
        }
        try {
            for (int v10 = 0; v10 < 4; v10++) {
                long v11 = ((((A) (Object) M.p0).wide(M.a1.wide(M.l0, M.i0), ((int) M.l0)) & ((long) M.sb.length())) ^ 255L);
                byte[] v12 = new byte[5];
            }
        } catch (Throwable t) {
            System.out.println("T");
            if (t instanceof E0) System.out.println(t.getMessage());
        }
        Object[] v13 = new String[4];
        A[] v14 = new B[0];
        try {
            try {
                M.oa[3] = M.p0;
                M.sb.append((h0((((int) M.l0) / 1), (M.la[0] % M.l0), ((Object) null), n - 1) ^ I1.NAME.length()));
            } catch (StringIndexOutOfBoundsException v15) {
                System.out.println("StringIndexOutOfBoundsException 7");
                if ((((Object) M.p0) == (Object) M.p0)) {
                    int v16 = M.ba[0];
                    int v17 = (M.iia[M.ca[2]][M.a1.m0(M.i0)] & ((-128) - v14.length));
                } else {
                }
                if (M.iia[(Integer.parseInt(M.s0) * M.sb.length())][2] > 100) throw v15;
            } catch (NegativeArraySizeException v18) {
                System.out.println("NegativeArraySizeException 8");
                System.out.println(((((Object) M.p0) instanceof int[]) ? M.ha[1] : (((M.l0 >> M.i0) > (64L % 10L)) ? M.sb.length() : M.ha[0])));
            } catch (LinkageError v19) {
                System.out.println("LinkageError 9");
                int v20 = 1;
            }
        } catch (Throwable t) {
            System.out.println("T");
            if (t instanceof E0) System.out.println(t.getMessage());
        }
        try {
            System.out.println((char) (97 + (v9.substring(((byte) M.a0.fs), 2).charAt(0) & 15)));
        } catch (Throwable t) {
            System.out.println("T");
            if (t instanceof E0) System.out.println(t.getMessage());
        }
        try {
            System.out.println((char) (97 + (M.i0 & 15)));
        } catch (Throwable t) {
            System.out.println("T");
            if (t instanceof E0) System.out.println(t.getMessage());
        }
        int v21 = M.a0.m1((M.i0++));
        try {
            for (int v22 = 0; v22 < 1; v22++) {
                M.aa[2] = M.a1.next;
            }
        } catch (Throwable t) {
            System.out.println("T");
            if (t instanceof E0) System.out.println(t.getMessage());
        }
        try {
            A.si = ((int) ((long) M.s0.length()));
        } catch (Throwable t) {
            System.out.println("T");
            if (t instanceof E0) System.out.println(t.getMessage());
        }
        int v23 = M.ha[3];
        String v24 = M.s0;
        try {
            System.arraycopy(M.la, 0, M.la, 0, 0);
        } catch (Throwable t) {
            System.out.println("T");
            if (t instanceof E0) System.out.println(t.getMessage());
        }
        try {
            System.arraycopy(M.la, 2, M.la, 2, 1);
        } catch (Throwable t) {
            System.out.println("T");
            if (t instanceof E0) System.out.println(t.getMessage());
        }
        S0.x = 127;
        try {
            for (int v25 = 0; v25 < 4; v25++) {
                Object v26 = M.p0;
                M.i0 = M.ja[1];
            }
        } catch (Throwable t) {
            System.out.println("T");
            if (t instanceof E0) System.out.println(t.getMessage());
        }
        int v27 = M.ha[1];
        try {
            M.ba[1] = (byte) (M.ia.length + v27);
        } catch (Throwable t) {
            System.out.println("T");
            if (t instanceof E0) System.out.println(t.getMessage());
        }
        try {
            if (((((Object) M.o0) == (Object) M.p0) && ((M.a1.m1(v23) == v27) && (((Object) M.p0) == (Object) M.a0)))) {
                M.a1.fs = (short) M.o0.f(((short) B.si2));
                for (int v28 = 0; v28 < 3; v28++) {
                    System.out.println((v27++));
                }
            } else {
            }
        } catch (Throwable t) {
            System.out.println("T");
            if (t instanceof E0) System.out.println(t.getMessage());
        }
        try {
            System.out.println((v21 <= v27));
        } catch (Throwable t) {
            System.out.println("T");
            if (t instanceof E0) System.out.println(t.getMessage());
        }
        try {
            System.out.println("x");
        } catch (Throwable t) {
            System.out.println("T");
            if (t instanceof E0) System.out.println(t.getMessage());
        }
        System.out.println(i0);
        System.out.println(sb.toString());
    }
}

interface I0 {
    int f(int x);
}

interface I1 extends I0 {
    int K = 77;
    String NAME = "I1";
    int g(int x, long y);
}

abstract class A implements I0 {
    int fi;
    byte fb;
    short fs;
    char fc;
    long fl;
    boolean fz;
    A next;
    static int si = 6;
    static {
        System.out.println("init A");
        if (M.i0 % 2 == 0) M.boom();
    }
    A(int x) {
        fi = x;
        fl = x * 3L;
    }
    A() {
        this(4);
    }
    int m0(int x) {
        if (((((M.i0 / x) * (M.i0 ^ x)) + x) <= "12".length())) {
            System.out.println(M.i0);
            System.out.println(x);
        } else {
            System.out.println((char) (97 + (x & 15)));
        }
        return M.i0;
    }
    abstract int m1(int x);
    public int f(int x) {
        return m0(x) + 1;
    }
    long wide(long y, int x) {
        return y * 31 + x;
    }
    A me() {
        return this;
    }
    String name(int x) {
        return "A";
    }
}

class B extends A {
    static int si2 = 5;
    static {
        System.out.println("init B");
    }
    int fi2;
    B(int x) {
        super(x + 1);
        fi2 = x;
        next = this;
    }
    int m1(int x) {
        return m0(x) - fi2;
    }
    int m0(int x) {
        return super.m0(x) * 2;
    }
    String name(int x) {
        return "B".concat(String.valueOf(x));
    }
}

class C extends A {
    static int si3;
    static {
        System.out.println("init C");
    }
    C(int x) {
        fb = (byte) x;
    }
    int m1(int x) {
        try {
            System.out.println(((M.a1.fl / 10L) * new C(M.ba[2]).fl));
            System.out.println(M.i0);
        } catch (E2 v1) {
            System.out.println("E2 1");
            System.out.println(v1.getMessage());
            if (M.o0.f(((x / -5) ^ (x++))) > 100) throw v1;
        } catch (E1 v2) {
            System.out.println("E1 2");
            System.out.println(v2.getMessage());
        } catch (ArithmeticException v3) {
            System.out.println("ArithmeticException 3");
        } catch (StringIndexOutOfBoundsException v4) {
            System.out.println("StringIndexOutOfBoundsException 4");
            System.out.println("a longer text".charAt(1));
        } catch (NumberFormatException v5) {
            System.out.println("NumberFormatException 5");
        } catch (LinkageError v6) {
            System.out.println("LinkageError 6");
            I0 v7 = M.o0;
            if (((int) M.l0) > 100) throw v6;
        }
        return (M.i0--);
    }
    A me() {
        return next;
    }
}

class D extends B implements I1 {
    static int sd = 7;
    D(int x) {
        super(x);
    }
    public int g(int x, long y) {
        return x + (int) y;
    }
    int m1(int x) {
        return super.m1(x) ^ 21;
    }
    String name(int x) {
        return super.name(x).concat("D");
    }
}

final class Q implements I1 {
    private int h;
    Q(int x) {
        h = x;
    }
    public int f(int x) {
        return h ^ x;
    }
    public int g(int x, long y) {
        return h;
    }
}

class S0 {
    static int x = M.i0;
}

class S1 {
    static final String T = "tee";
    static int x = S0.x + 2;
    static {
        System.out.println("init S1");
        M.i0 += 3;
    }
}

class E0 extends RuntimeException {
    E0() {
        super();
    }
    E0(String s) {
        super(s);
    }
}

class E1 extends E0 {
    int extra = 3;
    E1() {
        this("one");
    }
    E1(String s) {
        super(s);
    }
}

class E2 extends E1 {
    E2() {
    }
    E2(String s) {
        super(s);
    }
    public String getMessage() {
        return "two";
    }
}
