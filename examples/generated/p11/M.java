package p11;

public class M {
    static int i0 = -2;
    static long l0 = 26665L;
    static int[] ia = {1, 2, 3, 4};
    static int[] ja = new int[5];
    static byte[] ba = {1, -1, 127, -128};
    static char[] ca = new char[4];
    static short[] ha = new short[4];
    static long[] la = new long[6];
    static A a0, a1;
    static I0 o0;
    static Object p0;
    static String s0 = "start";
    static A[] aa = new A[4];
    static A[] bb;
    static Object[] oa = new Object[4];
    static int[][] iia = new int[3][4];
    static StringBuffer sb = new StringBuffer();
    static int boom() {
        throw new E1("boom");
    }
    static int h0(int x, long y, Object p, int n) {
        if (n <= 0) return x;
        M.i0 += M.ja.length;
        System.out.println((128 | M.a1.m1(M.i0)));
        M.bb[1] = M.a0.me();
        System.out.println(I1.NAME);
        return x;
    }
    static int h1(int x, long y, Object p, int n) {
        if (n <= 0) return x;
        System.out.println((char) (97 + (((M.bb.length + ((int) M.a1.wide(4294967296L, M.i0))) >> M.ba[M.a0.fi]) & 15)));
        M.sb.append(M.a1.fl);
        return (M.i0--);
    }
    static int h2(int x, long y, Object p, int n) {
        if (n <= 0) return x;
        System.arraycopy(M.oa, 3, M.oa, 3, 1);
        M.oa[3] = M.aa;
        M.ca[M.sb.length()] = (char) M.bb[M.iia.length].m1(((byte) C.si3));
        return String.valueOf(x).charAt(2);
    }
    static void set() {
        a0 = new B(3);
        a1 = new D(5);
        o0 = new Q(6);
        p0 = a1;
        aa[0] = a0;
        aa[1] = a1;
        bb = new B[4];
        oa[0] = s0;
        oa[1] = ia;
        oa[2] = a0;
    }
    public static void main(String[] args) {
        int n = 3;
        try {
            set();
        } catch (Throwable t) {
            System.out.println("set");
        }
        try {
            M.aa[1] = M.bb[1];
        } catch (Throwable t) {
            System.out.println("T");
            if (t instanceof E0) System.out.println(t.getMessage());
        }
        Object[] v1 = new A[0];
        try {
            System.out.println(M.ha[3]);
        } catch (Throwable t) {
            System.out.println("T");
            if (t instanceof E0) System.out.println(t.getMessage());
        }
        A[] v2 = new D[3];
        try {
            System.out.println(Integer.parseInt("2147483648"));
        } catch (Throwable t) {
            System.out.println("T");
            if (t instanceof E0) System.out.println(t.getMessage());
        }
        System.out.println((((Object) M.oa) == (Object) M.p0));
        long v3 = M.l0;
        long v4 = M.a1.fl;
        try {
            M.aa[1] = M.a1;
        } catch (Throwable t) {
            System.out.println("T");
            if (t instanceof E0) System.out.println(t.getMessage());
        }
        long[] v5 = new long[3];
        try {
            M.i0 = (M.sb.length() % 3);
        } catch (Throwable t) {
            System.out.println("T");
            if (t instanceof E0) System.out.println(t.getMessage());
        }
        long v6 = M.a1.wide((v4 & (v3 + M.la[2])), (M.i0 + (M.ja[3] % h2(3, M.l0, M.p0, n - 1))));
        try {
            System.arraycopy(M.ba, 2, M.ba, 3, 2);
        } catch (E1 v7) {
            System.out.println("E1 1");
            System.out.println(v7.getMessage());
        } catch (ArrayIndexOutOfBoundsException v8) {
            System.out.println("ArrayIndexOutOfBoundsException 2");
        } catch (NegativeArraySizeException v9) {
            System.out.println("NegativeArraySizeException 3");
            v1[1] = M.o0;
        } catch (NoClassDefFoundError v10) {
            System.out.println("NoClassDefFoundError 4");
            A[] v11 = new A[5];
        } catch (Throwable v12) {
            System.out.println("Throwable 5");
            switch (h0(65535, (v5[3] << M.ca[3]), M.p0, n - 1) & 7) {
                case -1: long v13 = v3;
                break;
                case 4: ;
                case 100: M.i0 += M.ia.length;
                default: System.out.println("d");
            }
        }
        try {
            if ((((v4 - (v3 & v6)) - M.l0) < new D(S1.x).wide(M.la[(-6)], M.i0))) throw new UnsupportedOperationException("m");
        } catch (Throwable t) {
            System.out.println("T");
            if (t instanceof E0) System.out.println(t.getMessage());
        }
        System.out.println(i0);
        System.out.println(sb.toString());
    }
}

interface I0 {
    int f(int x);
}

interface I1 extends I0 {
    int K = 77;
    String NAME = "I1";
    int g(int x, long y);
}

abstract class A implements I0 {
    int fi;
    byte fb;
    short fs;
    char fc;
    long fl;
    boolean fz;
    A next;
    static int si = 0;
    static {
        System.out.println("init A");
        M.i0 += 3;
    }
    A(int x) {
        fi = x;
        fl = x * 3L;
    }
    A() {
        this(4);
    }
    int m0(int x) {
        M.ja[2] += (int) ((M.o0.f(x) << (M.i0 ^ x)) >> M.ca[0]);
        return x;
    }
    abstract int m1(int x);
    public int f(int x) {
        return m0(x) + 1;
    }
    long wide(long y, int x) {
        return y * 31 + x;
    }
    A me() {
        return this;
    }
    String name(int x) {
        return "A";
    }
}

class B extends A {
    static int si2 = 5;
    static {
        System.out.println("init B");
        int q = 1 / (M.i0 & 1);
        System.out.println(q);
    }
    int fi2;
    B(int x) {
        super(x + 1);
        fi2 = x;
        next = this;
    }
    int m1(int x) {
        return m0(x) - fi2;
    }
    public int f(int x) {
        return x;
    }
    String name(int x) {
        return "B".concat(String.valueOf(x));
    }
}

class C extends A {
    static int si3;
    C(int x) {
        fb = (byte) x;
    }
    int m1(int x) {
        System.arraycopy(M.ba, 1, M.ba, 1, 1);
        return M.sb.length();
    }
}

class D extends B implements I1 {
    static int sd = 7;
    static {
        System.out.println("init D");
        int q = 1 / (M.i0 & 1);
        System.out.println(q);
    }
    D(int x) {
        super(x);
    }
    public int g(int x, long y) {
        return x + (int) y;
    }
    String name(int x) {
        return super.name(x).concat("D");
    }
}

final class Q implements I1 {
    private int h;
    static {
        System.out.println("init Q");
    }
    Q(int x) {
        h = x;
    }
    public int f(int x) {
        return h ^ x;
    }
    public int g(int x, long y) {
        return h;
    }
}

class S0 {
    static int x = M.i0;
    static {
        System.out.println("init S0");
        int q = 1 / (M.i0 & 1);
        System.out.println(q);
    }
}

class S1 {
    static final String T = "tee";
    static int x = 2;
    static {
        System.out.println("init S1");
        System.out.println(S0.x);
    }
}

class E0 extends RuntimeException {
    E0() {
        super();
    }
    E0(String s) {
        super(s);
    }
}

class E1 extends E0 {
    int extra = 3;
    E1() {
        this("one");
    }
    E1(String s) {
        super(s);
    }
}

class E2 extends E1 {
    E2() {
    }
    E2(String s) {
        super(s);
    }
    public String getMessage() {
        return "two";
    }
}
