package p13;

public class M {
    static int i0 = -3;
    static long l0 = 92086L;
    static int[] ia = {1, 2, 3, 4};
    static int[] ja = new int[5];
    static byte[] ba = {1, -1, 127, -128};
    static char[] ca = new char[4];
    static short[] ha = new short[4];
    static long[] la = new long[6];
    static A a0, a1;
    static I0 o0;
    static Object p0;
    static String s0 = "start";
    static A[] aa = new A[4];
    static A[] bb;
    static Object[] oa = new Object[4];
    static int[][] iia = new int[3][4];
    static StringBuffer sb = new StringBuffer();
    static int boom() {
        throw new E1("boom");
    }
    static int h0(int x, long y, Object p, int n) {
        if (n <= 0) return x;
        System.out.println(M.bb[0].wide(4294967296L, M.ha[2]));
        switch (x ) {
            case -1: System.out.println((x--));
            case 1: M.aa[2] = M.a0;
            break;
            case 2: M.i0 = ((short) (x++));
            break;
            case 100: System.out.println((((M.s0.charAt(2) < x) ? (x + (M.i0 | 31)) : 32767) & M.a1.fc));
            break;
            default: System.out.println("d");
        }
        switch ("a longer text".charAt(2) & 7) {
            case -1: ;
            case 0: ;
            break;
            case 1: System.out.println(9223372036854775807L);
            case 100: long v10 = ((long) M.ca[3]);
            default: System.out.println("d");
        }
        return (x * (M.i0 % 1));
    }
    static int h1(int x, long y, Object p, int n) {
        if (n <= 0) return x;
        B.si2 += (x--);
        int v11 = M.a1.fb;
        System.out.println(new B(((int) (M.l0 + 255L))).wide(((long) ((int) M.a1.wide(M.l0, (-1)))), M.i0));
        return M.o0.f(M.iia[2][3]);
    }
    static int h2(int x, long y, Object p, int n) {
        if (n <= 0) return x;
        for (int v12 = 0; v12 < 3; v12++) {
            A[] v13 = new B[5];
        }
        M.bb[2] = new D(S0.x);
        M.sb.append((char) (105));
        System.out.println((M.i0 & ((int) (((long) M.i0) / y))));
        return (((short) x) + M.i0);
    }
    static void set() {
        a0 = new B(3);
        a1 = new D(5);
        o0 = new Q(6);
        p0 = a1;
        aa[0] = a0;
        aa[1] = a1;
        bb = new B[4];
        oa[0] = s0;
        oa[1] = ia;
        oa[2] = a0;
    }
    public static void main(String[] args) {
        int n = 3;
        try {
            set();
        } catch (Throwable t) {
            System.out.println("set");
        }
        int[] v14 = new int[1];
        try {
            System.arraycopy(M.bb, I1.K, M.aa, 0, 1);
        } catch (Throwable t) {
            System.out.println("T");
            if (t instanceof E0) System.out.println(t.getMessage());
        }
        try {
            switch ((v14[1] | ((int) (((long) 2147483647) ^ M.l0))) ) {
                case 0: M.i0 *= v14[2147483647];
                case 5: ;
                default: System.out.println("d");
            }
        } catch (Throwable t) {
            System.out.println("T");
            if (t instanceof E0) System.out.println(t.getMessage());
        }
        long v15 = ((M.a0.wide(M.la[2], M.i0) & M.l0) / 10L);
        int v16 = M.i0;
        long v17 = M.l0;
        try {
            System.out.println(((((M.l0 * M.l0) ^ (v17 | 63L)) >> M.ca[127]) > ((64L % 1L) >> M.s0.length())));
        } catch (Throwable t) {
            System.out.println("T");
            if (t instanceof E0) System.out.println(t.getMessage());
        }
        try {
            v14[M.i0] = (int) (((((Object) M.p0) != (Object) M.p0) ^ (((Object) M.p0) instanceof int[])) ? M.i0 : (((short) S0.x) * v16));
        } catch (Throwable t) {
            System.out.println("T");
            if (t instanceof E0) System.out.println(t.getMessage());
        }
        try {
            System.out.println("a longer text".length());
        } catch (Throwable t) {
            System.out.println("T");
            if (t instanceof E0) System.out.println(t.getMessage());
        }
        String v18 = M.s0;
        M.ca[1] = (char) ((int) (v17 / (v15 << D.sd)));
        System.out.println((v16 + M.s0.length()));
        try {
            System.out.println((((long) M.i0) == v15));
        } catch (Throwable t) {
            System.out.println("T");
            if (t instanceof E0) System.out.println(t.getMessage());
        }
        try {
            System.out.println(M.i0);
        } catch (Throwable t) {
            System.out.println("T");
            if (t instanceof E0) System.out.println(t.getMessage());
        }
        try {
            M.sb.append(((M.a1.wide((v15 / M.l0), v16) ^ ((v17 << v16) % M.a1.fl)) & M.a1.wide(v17, Integer.parseInt(((String) null)))));
        } catch (Throwable t) {
            System.out.println("T");
            if (t instanceof E0) System.out.println(t.getMessage());
        }
        try {
            System.out.println(M.o0.f(v16));
        } catch (Throwable t) {
            System.out.println("T");
            if (t instanceof E0) System.out.println(t.getMessage());
        }
        try {
            System.out.println((char) (97 + (v18.concat(v18).charAt(0) & 15)));
        } catch (Throwable t) {
            System.out.println("T");
            if (t instanceof E0) System.out.println(t.getMessage());
        }
        Object v19 = M.o0;
        try {
            System.out.println(v18);
        } catch (Throwable t) {
            System.out.println("T");
            if (t instanceof E0) System.out.println(t.getMessage());
        }
        System.out.println(i0);
        System.out.println(sb.toString());
    }
}

interface I0 {
    int f(int x);
}

interface I1 extends I0 {
    int K = 77;
    String NAME = "I1";
    int g(int x, long y);
}

abstract class A implements I0 {
    int fi;
    byte fb;
    short fs;
    char fc;
    long fl;
    boolean fz;
    A next;
    static int si = 3;
    static {
        System.out.println("init A");
    }
    A(int x) {
        fi = x;
        fl = x * 3L;
    }
    A() {
        this(4);
    }
    int m0(int x) {
        switch (M.a1.m1(((x * "x".charAt(3)) % (M.iia[M.i0][3] * M.a0.fi))) & 7) {
            case -1: int v1 = ((int) M.l0);
            break;
            case 5: ;
            default: System.out.println("d");
        }
        return ((I0) (Object) M.p0).f(1);
    }
    abstract int m1(int x);
    public int f(int x) {
        return m0(x) + 1;
    }
    long wide(long y, int x) {
        return y * 31 + x;
    }
    A me() {
        return this;
    }
    String name(int x) {
        return "A";
    }
}

class B extends A {
    static int si2 = 5;
    int fi2;
    B(int x) {
        super(x + 1);
        fi2 = x;
        next = this;
    }
    int m1(int x) {
        return m0(x) - fi2;
    }
    String name(int x) {
        return "B".concat(String.valueOf(x));
    }
}

class C extends A {
    static int si3;
    C(int x) {
        fb = (byte) x;
    }
    int m1(int x) {
        try {
            long v2 = M.l0;
            S0.x = 32767;
            Object[] v3 = new Object[3];
        } catch (NumberFormatException v4) {
            System.out.println("NumberFormatException 1");
        } catch (IllegalArgumentException v5) {
            System.out.println("IllegalArgumentException 2");
        } catch (NoClassDefFoundError v6) {
            System.out.println("NoClassDefFoundError 3");
            if ((M.ha[3] > M.ca[3])) throw new UnsupportedOperationException("m");
        } catch (ExceptionInInitializerError v7) {
            System.out.println("ExceptionInInitializerError 4");
            System.out.println((M.ca[1] - x));
        } catch (LinkageError v8) {
            System.out.println("LinkageError 5");
            System.out.println(((long) (x & M.s0.length())));
        } catch (Throwable v9) {
            System.out.println("Throwable 6");
            System.out.println((((Object) M.p0) instanceof I1));
        }
        return x;
    }
    A me() {
        return next;
    }
}

class D extends B implements I1 {
    static int sd = M.i0 * 2;
    static {
        System.out.println("init D");
        int q = 1 / (M.i0 & 1);
        System.out.println(q);
    }
    D(int x) {
        super(x);
    }
    public int g(int x, long y) {
        return x + (int) y;
    }
    int m1(int x) {
        return super.m1(x) ^ 21;
    }
    String name(int x) {
        return super.name(x).concat("D");
    }
}

final class Q implements I1 {
    private int h;
    static {
        System.out.println("init Q");
    }
    Q(int x) {
        h = x;
    }
    public int f(int x) {
        return h ^ x;
    }
    public int g(int x, long y) {
        return h;
    }
}

class S0 {
    static int x = 1;
}

class S1 {
    static final String T = "tee";
    static int x = 2;
    static {
        System.out.println("init S1");
        M.i0 += 3;
    }
}

class E0 extends RuntimeException {
    E0() {
        super();
    }
    E0(String s) {
        super(s);
    }
}

class E1 extends E0 {
    int extra = 3;
    E1() {
        this("one");
    }
    E1(String s) {
        super(s);
    }
}

class E2 extends E1 {
    E2() {
    }
    E2(String s) {
        super(s);
    }
    public String getMessage() {
        return "two";
    }
}
