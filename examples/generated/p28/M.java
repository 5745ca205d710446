package p28;

public class M {
    static int i0 = -1;
    static long l0 = 69879L;
    static int[] ia = {1, 2, 3, 4};
    static int[] ja = new int[5];
    static byte[] ba = {1, -1, 127, -128};
    static char[] ca = new char[4];
    static short[] ha = new short[4];
    static long[] la = new long[6];
    static A a0, a1;
    static I0 o0;
    static Object p0;
    static String s0 = "start";
    static A[] aa = new A[4];
    static A[] bb;
    static Object[] oa = new Object[4];
    static int[][] iia = new int[3][4];
    static StringBuffer sb = new StringBuffer();
    static int boom() {
        throw new E1("boom");
    }
    static int h0(int x, long y, Object p, int n) {
        if (n <= 0) return x;
        System.out.println((char) (97 + (h0(M.i0, ((long) M.i0), M.a1, n - 1) & 15)));
        long v1 = M.l0;
        switch ((-128) % 5) {
            case 0: System.out.println((char) (97 + (h2((M.i0++), 0L, M.p0, n - 1) & 15)));
            break;
            case 1: System.out.println(x);
            break;
            case 2: System.out.println(M.la[3]);
            break;
            case 4: ;
            default: System.out.println("d");
        }
        return M.ja.length;
    }
    static int h1(int x, long y, Object p, int n) {
        if (n <= 0) return x;
        long v2 = (M.la[3] - M.la[2]);
        System.out.println(M.ja[x]);
        switch (M.i0 % 5) {
            case 0: long v3 = M.la[1];
            break;
            case 4: A.si = ((M.a0.m1((M.i0 / 7)) & ((false ? (-10241) : M.i0) / 1)) ^ M.ca[(M.i0 + M.i0)]);
            break;
            default: System.out.println("d");
        }
        A[] v4 = new A[3];
        return M.a1.m0(M.i0);
    }
    static int h2(int x, long y, Object p, int n) {
        if (n <= 0) return x;
        System.out.println((y | (M.l0 * M.l0)));
        System.out.println((M.sb.length() >>> M.aa.length));
        C.si3 = ((A) null).m0(((char) M.a1.m1(127)));
        byte[] v5 = new byte[4];
        return ((short) ((int) M.l0));
    }
    static void set() {
        a0 = new B(3);
        a1 = new D(5);
        o0 = new Q(6);
        p0 = a1;
        aa[0] = a0;
        aa[1] = a1;
        bb = new B[4];
        oa[0] = s0;
        oa[1] = ia;
        oa[2] = a0;
    }
    public static void main(String[] args) {
        int n = 3;
        try {
            set();
        } catch (Throwable t) {
            System.out.println("set");
        }
        byte[] v6 = new byte[3];
        try {
            switch (65535 % 5) {
                case -1: System.out.println(((M.ha[1] ^ ((M.i0 + M.i0) | M.ia[0])) & M.ia[1]));
                case 4: System.arraycopy(M.ba, 1, v6, M.i0, 3);
                break;
                default: System.out.println("d");
            }
        } catch (Throwable t) {
            System.out.println("T");
            if (t instanceof E0) System.out.println(t.getMessage());
        }
        try {
            M.i0 >>= B.si2;
        } catch (Throwable t) {
            System.out.println("T");
            if (t instanceof E0) System.out.println(t.getMessage());
        }
        try {
            switch (M.i0 ) {
                case 3: ;
                case 100: ;
                default: System.out.println("d");
            }
        } catch (Throwable t) {
            System.out.println("T");
            if (t instanceof E0) System.out.println(t.getMessage());
        }
        try {
            M.bb[1] = M.a1;
        } catch (Throwable t) {
            System.out.println("T");
            if (t instanceof E0) System.out.println(t.getMessage());
        }
        try {
            B.si2 += M.sb.length();
        } catch (Throwable t) {
            System.out.println("T");
            if (t instanceof E0) System.out.println(t.getMessage());
        }
        try {
            System.out.println(M.i0);
        } catch (Throwable t) {
            System.out.println("T");
            if (t instanceof E0) System.out.println(t.getMessage());
        }
        try {
            for (int v7 = 0; v7 < 3; v7++) {
                System.out.println(M.i0);
                M.bb[0] = M.a1;
            }
        } catch (Throwable t) {
            System.out.println("T");
            if (t instanceof E0) System.out.println(t.getMessage());
        }
        try {
            System.out.println(((1234567890123L >>> M.iia[2][2]) | M.a1.wide(((M.l0 * M.l0) % 10L), M.i0)));
        } catch (Throwable t) {
            System.out.println("T");
            if (t instanceof E0) System.out.println(t.getMessage());
        }
        try {
            if ((((Object) M.p0) != (Object) M.p0)) {
                Object v8 = M.oa[3];
            } else {
            }
        } catch (Throwable t) {
            System.out.println("T");
            if (t instanceof E0) System.out.println(t.getMessage());
        }
        try {
            System.out.println(M.a1.wide(((M.a0.wide(63L, 84818) & 1L) / M.l0), M.i0));
        } catch (Throwable t) {
            System.out.println("T");
            if (t instanceof E0) System.out.println(t.getMessage());
        }
        System.out.println((char) (97 + (M.s0.length() & 15)));
        try {
            System.out.println((char) (97 + (M.i0 & 15)));
        } catch (Throwable t) {
            System.out.println("T");
            if (t instanceof E0) System.out.println(t.getMessage());
        }
        System.out.println(i0);
        System.out.println(sb.toString());
    }
}

interface I0 {
    int f(int x);
}

interface I1 extends I0 {
    int K = 77;
    String NAME = "I1";
    int g(int x, long y);
}

abstract class A implements I0 {
    int fi;
    byte fb;
    short fs;
    char fc;
    long fl;
    boolean fz;
    A next;
    static int si = 1;
    A(int x) {
        fi = x;
        fl = x * 3L;
    }
    A() {
        this(4);
    }
    int m0(int x) {
        M.ha[((byte) M.i0)] = (short) M.i0;
        return M.i0;
    }
    abstract int m1(int x);
    public int f(int x) {
        return m0(x) + 1;
    }
    long wide(long y, int x) {
        return y * 31 + x;
    }
    A me() {
        return this;
    }
    String name(int x) {
        return "A";
    }
}

class B extends A {
    static int si2 = 5;
    static {
        System.out.println("init B");
        if (M.i0 % 2 == 0) M.boom();
    }
    int fi2;
    B(int x) {
        super(x + 1);
        fi2 = x;
        next = this;
    }
    int m1(int x) {
        return m0(x) - fi2;
    }
    int m0(int x) {
        return super.m0(x) * 2;
    }
    String name(int x) {
        return "B".concat(String.valueOf(x));
    }
}

class C extends A {
    static int si3;
    C(int x) {
        super(x);
        fb = (byte) x;
    }
    int m1(int x) {
        System.out.println(M.ba[I1.K]);
        return M.sb.length();
    }
    long wide(long y, int x) {
        return super.wide(x, (int) y);
    }
    A me() {
        return next;
    }
}

class D extends B implements I1 {
    static int sd = 7;
    D(int x) {
        super(x);
    }
    public int g(int x, long y) {
        return x + (int) y;
    }
    String name(int x) {
        return super.name(x).concat("D");
    }
}

final class Q implements I1 {
    private int h;
    static {
        System.out.println("init Q");
        System.out.println(S0.x);
    }
    Q(int x) {
        h = x;
    }
    public int f(int x) {
        return h ^ x;
    }
    public int g(int x, long y) {
        return h;
    }
}

class S0 {
    static int x = M.i0;
}

class S1 {
    static final String T = "tee";
    static int x = 2;
}

class E0 extends RuntimeException {
    E0() {
        super();
    }
    E0(String s) {
        super(s);
    }
}

class E1 extends E0 {
    int extra = 3;
    E1() {
        this("one");
    }
    E1(String s) {
        super(s);
    }
}

class E2 extends E1 {
    E2() {
    }
    E2(String s) {
        super(s);
    }
    public String getMessage() {
        return "two";
    }
}
