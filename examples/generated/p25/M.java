package p25;

public class M {
    static int i0 = 5;
    static long l0 = 67150L;
    static int[] ia = {1, 2, 3, 4};
    static int[] ja = new int[5];
    static byte[] ba = {1, -1, 127, -128};
    static char[] ca = new char[4];
    static short[] ha = new short[4];
    static long[] la = new long[6];
    static A a0, a1;
    static I0 o0;
    static Object p0;
    static String s0 = "start";
    static A[] aa = new A[4];
    static A[] bb;
    static Object[] oa = new Object[4];
    static int[][] iia = new int[3][4];
    static StringBuffer sb = new StringBuffer();
    static int boom() {
        throw new E1("boom");
    }
    static int h0(int x, long y, Object p, int n) {
        if (n <= 0) return x;
        C.si3 = (x / ((byte) ("".charAt(1) ^ M.i0)));
        M.aa[2] = M.a0;
        M.a0.fs = (short) M.ha[((byte) (-1))];
        return 2;
    }
    static int h1(int x, long y, Object p, int n) {
        if (n <= 0) return x;
        System.out.println(M.l0);
        M.oa[0] = M.oa[3];
        return M.i0;
    }
    static int h2(int x, long y, Object p, int n) {
        if (n <= 0) return x;
        System.arraycopy(M.oa, 3, M.oa, 1, 1);
        M.ha[2] = (short) M.i0;
        return M.i0;
    }
    static void set() {
        a0 = new B(3);
        a1 = new D(5);
        o0 = new Q(6);
        p0 = a1;
        aa[0] = a0;
        aa[1] = a1;
        bb = new B[4];
        oa[0] = s0;
        oa[1] = ia;
        oa[2] = a0;
    }
    public static void main(String[] args) {
        int n = 3;
        try {
            set();
        } catch (Throwable t) {
            System.out.println("set");
        }
        try {
            System.out.println(((short) ((int) 2L)));
        } catch (Throwable t) {
            System.out.println("T");
            if (t instanceof E0) System.out.println(t.getMessage());
        }
        String v1 = String.valueOf((M.ba[0] + ((int) M.l0)));
        try {
            System.arraycopy(M.ia, 2, M.ja, 3, M.ba[2]);
        } catch (Throwable t) {
            System.out.println("T");
            if (t instanceof E0) System.out.println(t.getMessage());
        }
        try {
            M.i0 ^= M.ha[2];
        } catch (Throwable t) {
            System.out.println("T");
            if (t instanceof E0) System.out.println(t.getMessage());
        }
        try {
            System.out.println(new Q(((int) (2L << M.i0))).f(M.ca[3]));
        } catch (Throwable t) {
            System.out.println("T");
            if (t instanceof E0) System.out.println(t.getMessage());
        }
        try {
            M.i0 -= h0((M.i0 - M.ia.length), M.la[3], M.p0, n - 1);
        } catch (Throwable t) {
            System.out.println("T");
            if (t instanceof E0) System.out.println(t.getMessage());
        }
        int v2 = ((M.i0 % 3) * 33);
        System.out.println(M.s0);
        try {
            System.out.println(((((M.l0 * 4294967296L) >>> Integer.parseInt("-")) >> ((int) M.a1.wide(M.l0, v2))) | (M.l0 * M.l0)));
        } catch (Throwable t) {
            System.out.println("T");
            if (t instanceof E0) System.out.println(t.getMessage());
        }
        try {
            for (int v3 = 0; v3 < 2; v3++) {
                System.out.println((((Object) ((Object) null)) instanceof A));
                System.out.println((((Object) I1.NAME) instanceof I1));
            }
        } catch (Throwable t) {
            System.out.println("T");
            if (t instanceof E0) System.out.println(t.getMessage());
        }
        System.out.println(((M.l0 ^ M.a1.fl) << S0.x));
        try {
            M.ca[3] = (char) M.i0;
        } catch (Throwable t) {
            System.out.println("T");
            if (t instanceof E0) System.out.println(t.getMessage());
        }
        System.out.println(M.i0);
        try {
            switch (M.sb.length() & 7) {
                case 0: System.out.println(M.ca[1]);
                case 5: System.out.println(v2);
                default: System.out.println("d");
            }
        } catch (Throwable t) {
            System.out.println("T");
            if (t instanceof E0) System.out.println(t.getMessage());
        }
        try {
            if ((M.la.length >= M.i0)) {
                M.bb[2] = M.a1;
            } else {
                try {
                    System.out.println(M.s0);
                    int v4 = M.iia[2][0];
                    M.i0 >>= M.i0;
                } catch (E2 v5) {
                    System.out.println("E2 1");
                    System.out.println(v5.getMessage());
                    long v6 = ((((M.l0 >> M.i0) + (9223372036854775807L & M.l0)) - (M.a0.fl | (2L * 9223372036854775807L))) / M.a1.next.fl);
                } catch (NullPointerException v7) {
                    System.out.println("NullPointerException 2");
                    System.out.println((((Object) M.a1) == (Object) v1));
                } catch (IllegalArgumentException v8) {
                    System.out.println("IllegalArgumentException 3");
                } catch (ExceptionInInitializerError v9) {
                    System.out.println("ExceptionInInitializerError 4");
                    System.out.println(M.ca[1]);
                } catch (Throwable v10) {
                    System.out.println("Throwable 5");
                    I0 v11 = M.o0;
                }
            }
        } catch (Throwable t) {
            System.out.println("T");
            if (t instanceof E0) System.out.println(t.getMessage());
        }
        try {
            System.out.println((char) (97 + (((int) (((2L - M.l0) | M.l0) - (M.a0.fl / 7L))) & 15)));
        } catch (Throwable t) {
            System.out.println("T");
            if (t instanceof E0) System.out.println(t.getMessage());
        }
        try {
            System.out.println(M.s0);
        } catch (Throwable t) {
            System.out.println("T");
            if (t instanceof E0) System.out.println(t.getMessage());
        }
        try {
            System.arraycopy(M.oa, 0, M.oa, 7, 0);
        } catch (Throwable t) {
            System.out.println("T");
            if (t instanceof E0) System.out.println(t.getMessage());
        }
        try {
            M.a0.fl += ((long) v2);
        } catch (Throwable t) {
            System.out.println("T");
            if (t instanceof E0) System.out.println(t.getMessage());
        }
        try {
            C.si3 = 31;
        } catch (Throwable t) {
            System.out.println("T");
            if (t instanceof E0) System.out.println(t.getMessage());
        }
        int v12 = Integer.parseInt("-2147483648");
        System.out.println(M.s0);
        long v13 = M.a1.fl;
        switch ((((String) null).length() & (((v12 / 3) & (false ? v2 : M.i0)) % M.iia[0][0])) & 7) {
            case 1: System.out.println(((((Object) M.p0) instanceof B) ? M.iia[M.i0][1] : ((v12 ^ M.ba[v12]) - M.a1.fi)));
            case 3: ;
            case 5: M.sb.append(M.l0);
            break;
            case 100: ;
            break;
            default: System.out.println("d");
        }
        System.out.println(i0);
        System.out.println(sb.toString());
    }
}

interface I0 {
    int f(int x);
}

interface I1 extends I0 {
    int K = 77;
    String NAME = "I1";
    int g(int x, long y);
}

abstract class A implements I0 {
    int fi;
    byte fb;
    short fs;
    char fc;
    long fl;
    boolean fz;
    A next;
    static int si = 0;
    static {
        System.out.println("init A");
        M.i0 += 3;
    }
    A(int x) {
        fi = x;
        fl = x * 3L;
    }
    A() {
        this(4);
    }
    int m0(int x) {
        System.arraycopy(M.ia, x, M.ja, 0, 0);
        return I1.K;
    }
    abstract int m1(int x);
    public int f(int x) {
        return m0(x) + 1;
    }
    long wide(long y, int x) {
        return y * 31 + x;
    }
    A me() {
        return this;
    }
    String name(int x) {
        return "A";
    }
}

class B extends A {
    static int si2 = 5;
    int fi2;
    B(int x) {
        super(x + 1);
        fi2 = x;
        next = this;
    }
    int m1(int x) {
        return m0(x) - fi2;
    }
    String name(int x) {
        return "B".concat(String.valueOf(x));
    }
}

class C extends A {
    static int si3;
    C(int x) {
        fb = (byte) x;
    }
    int m1(int x) {
        if ((((Object) M.p0) == (Object) M.p0)) {
            System.out.println(M.s0);
        } else {
            System.out.println(M.o0.f((x++)));
        }
        return x;
    }
    long wide(long y, int x) {
        return super.wide(x, (int) y);
    }
    A me() {
        return next;
    }
}

class D extends B implements I1 {
    static int sd = B.si2 + 1;
    static {
        System.out.println("init D");
        int q = 1 / (M.i0 & 1);
        System.out.println(q);
    }
    D(int x) {
        super(x);
    }
    public int g(int x, long y) {
        return x + (int) y;
    }
    int m1(int x) {
        return super.m1(x) ^ 21;
    }
    String name(int x) {
        return super.name(x).concat("D");
    }
}

final class Q implements I1 {
    private int h;
    static {
        System.out.println("init Q");
        int q = 1 / (M.i0 & 1);
        System.out.println(q);
    }
    Q(int x) {
        h = x;
    }
    public int f(int x) {
        return h ^ x;
    }
    public int g(int x, long y) {
        return h;
    }
}

class S0 {
    static int x = S1.x + 1;
    static {
        System.out.println("init S0");
        int q = 1 / (M.i0 & 1);
        System.out.println(q);
    }
}

class S1 {
    static final String T = "tee";
    static int x = 2;
    static {
        System.out.println("init S1");
        if (M.i0 % 2 == 0) M.boom();
    }
}

class E0 extends RuntimeException {
    E0() {
        super();
    }
    E0(String s) {
        super(s);
    }
}

class E1 extends E0 {
    int extra = 3;
    E1() {
        this("one");
    }
    E1(String s) {
        super(s);
    }
}

class E2 extends E1 {
    E2() {
    }
    E2(String s) {
        super(s);
    }
    public String getMessage() {
        return "two";
    }
}
