package p09;

public class M {
    static int i0 = -1;
    static long l0 = 76604L;
    static int[] ia = {1, 2, 3, 4};
    static int[] ja = new int[5];
    static byte[] ba = {1, -1, 127, -128};
    static char[] ca = new char[4];
    static short[] ha = new short[4];
    static long[] la = new long[6];
    static A a0, a1;
    static I0 o0;
    static Object p0;
    static String s0 = "start";
    static A[] aa = new A[4];
    static A[] bb;
    static Object[] oa = new Object[4];
    static int[][] iia = new int[3][4];
    static StringBuffer sb = new StringBuffer();
    static int boom() {
        throw new E1("boom");
    }
    static int h0(int x, long y, Object p, int n) {
        if (n <= 0) return x;
        byte[] v2 = new byte[5];
        for (int v3 = 0; v3 < 1; v3++) {
            M.a0.fs = (short) (x + M.iia[M.i0][M.i0]);
        }
        long v4 = ((y % 7L) - 2L);
        M.i0 >>= h1(32767, M.la[3], M.a1, n - 1);
        return x;
    }
    static int h1(int x, long y, Object p, int n) {
        if (n <= 0) return x;
        for (int v5 = 0; v5 < 4; v5++) {
            System.out.println((((int) M.la[2]) * M.ca[(x--)]));
        }
        A v6 = M.a0;
        return x;
    }
    static int h2(int x, long y, Object p, int n) {
        if (n <= 0) return x;
        System.arraycopy(M.la, 1, M.la, M.i0, ((char) (M.i0 + 7)));
        System.out.println(I1.NAME);
        return M.a1.m1(M.ha[2]);
    }
    static void set() {
        a0 = new B(3);
        a1 = new D(5);
        o0 = new Q(6);
        p0 = a1;
        aa[0] = a0;
        aa[1] = a1;
        bb = new B[4];
        oa[0] = s0;
        oa[1] = ia;
        oa[2] = a0;
    }
    public static void main(String[] args) {
        int n = 3;
        try {
            set();
        } catch (Throwable t) {
            System.out.println("set");
        }
        try {
            try {
                M.i0 >>= M.i0;
            } catch (StringIndexOutOfBoundsException v7) {
                System.out.println("StringIndexOutOfBoundsException 1");
                Object[] v8 = new Object[2];
                if (M.a0.fb > 100) throw v7;
            } catch (NumberFormatException v9) {
                System.out.println("NumberFormatException 2");
            } catch (IllegalArgumentException v10) {
                System.out.println("IllegalArgumentException 3");
                if ((M.s0.length() ^ M.i0) > 100) throw v10;
            } catch (LinkageError v11) {
                System.out.println("LinkageError 4");
            }
        } catch (Throwable t) {
            System.out.println("T");
            if (t instanceof E0) System.out.println(t.getMessage());
        }
        System.out.println(M.s0);
        try {
            System.out.println(M.l0);
        } catch (Throwable t) {
            System.out.println("T");
            if (t instanceof E0) System.out.println(t.getMessage());
        }
        int v12 = ((((Object) M.p0) instanceof B[]) ? (Integer.parseInt(M.s0) ^ M.ca[0]) : M.iia[3][2]);
        try {
            System.out.println((!(((Object) M.p0) instanceof C)));
        } catch (Throwable t) {
            System.out.println("T");
            if (t instanceof E0) System.out.println(t.getMessage());
        }
        try {
            System.out.println((char) (97 + (M.s0.charAt(0) & 15)));
        } catch (Throwable t) {
            System.out.println("T");
            if (t instanceof E0) System.out.println(t.getMessage());
        }
        try {
            try {
                M.oa[2] = M.ja;
                M.bb[2] = M.a0;
            } catch (ArithmeticException v13) {
                System.out.println("ArithmeticException 5");
            } catch (StringIndexOutOfBoundsException v14) {
                System.out.println("StringIndexOutOfBoundsException 6");
                int v15 = v12;
            }
        } catch (Throwable t) {
            System.out.println("T");
            if (t instanceof E0) System.out.println(t.getMessage());
        }
        try {
            M.oa[(v12 + M.ba[1])] = M.p0;
        } catch (Throwable t) {
            System.out.println("T");
            if (t instanceof E0) System.out.println(t.getMessage());
        }
        try {
            M.i0 *= M.s0.charAt(0);
        } catch (Throwable t) {
            System.out.println("T");
            if (t instanceof E0) System.out.println(t.getMessage());
        }
        try {
            M.a0.fi = (((((Object) M.p0) instanceof A[]) && (!(((Object) M.p0) != (Object) M.p0))) ? M.a0.fi : M.o0.f(((M.i0 | M.i0) | 7)));
        } catch (Throwable t) {
            System.out.println("T");
            if (t instanceof E0) System.out.println(t.getMessage());
        }
        try {
            System.out.println(M.i0);
        } catch (Throwable t) {
            System.out.println("T");
            if (t instanceof E0) System.out.println(t.getMessage());
        }
        try {
            System.arraycopy(M.la, 2, M.la, v12, 2);
        } catch (Throwable t) {
            System.out.println("T");
            if (t instanceof E0) System.out.println(t.getMessage());
        }
        try {
            M.bb[3] = M.a1;
        } catch (Throwable t) {
            System.out.println("T");
            if (t instanceof E0) System.out.println(t.getMessage());
        }
        try {
            System.out.println((char) (97 + (v12 & 15)));
        } catch (Throwable t) {
            System.out.println("T");
            if (t instanceof E0) System.out.println(t.getMessage());
        }
        M.sb.append((M.o0.f(v12) | ((B) ((B) M.a0)).m0(h1(M.ba[M.i0], M.a0.fl, M.p0, n - 1))));
        long v16 = M.l0;
        System.out.println(i0);
        System.out.println(sb.toString());
    }
}

interface I0 {
    int f(int x);
}

interface I1 extends I0 {
    int K = 77;
    String NAME = "I1";
    int g(int x, long y);
}

abstract class A implements I0 {
    int fi;
    byte fb;
    short fs;
    char fc;
    long fl;
    boolean fz;
    A next;
    static int si = 6;
    static {
        System.out.println("init A");
        if (M.i0 % 2 == 0) M.boom();
    }
    A(int x) {
        fi = x;
        fl = x * 3L;
    }
    A() {
        this(4);
    }
    int m0(int x) {
        M.sb.append("ab".substring(M.o0.f(M.ba[5]), 0));
        return (M.ha[0] ^ (M.i0 - x));
    }
    abstract int m1(int x);
    public int f(int x) {
        return m0(x) + 1;
    }
    long wide(long y, int x) {
        return y * 31 + x;
    }
    A me() {
        return this;
    }
    String name(int x) {
        return "A";
    }
}

class B extends A {
    static int si2 = 5;
    int fi2;
    B(int x) {
        super(x + 1);
        fi2 = x;
        next = this;
    }
    int m1(int x) {
        return m0(x) - fi2;
    }
    String name(int x) {
        return "B".concat(String.valueOf(x));
    }
}

class C extends A {
    static int si3;
    static {
        System.out.println("init C");
        S0.x = 9;
    }
    C(int x) {
        super(x);
        fb = (byte) x;
    }
    int m1(int x) {
        long v1 = (4294967296L - 10L);
        return (M.i0++);
    }
    long wide(long y, int x) {
        return super.wide(x, (int) y);
    }
    A me() {
        return next;
    }
}

class D extends B implements I1 {
    static int sd = S1.x;
    static {
        System.out.println("init D");
        S0.x = 9;
    }
    D(int x) {
        super(x);
    }
    public int g(int x, long y) {
        return x + (int) y;
    }
    String name(int x) {
        return super.name(x).concat("D");
    }
}

final class Q implements I1 {
    private int h;
    static {
        System.out.println("init Q");
    }
    Q(int x) {
        h = x;
    }
    public int f(int x) {
        return h ^ x;
    }
    public int g(int x, long y) {
        return h;
    }
}

class S0 {
    static int x = M.i0;
    static {
        System.out.println("init S0");
        int q = 1 / (M.i0 & 1);
        System.out.println(q);
    }
}

class S1 {
    static final String T = "tee";
    static int x = S0.x + 2;
    static {
        System.out.println("init S1");
    }
}

class E0 extends RuntimeException {
    E0() {
        super();
    }
    E0(String s) {
        super(s);
    }
}

class E1 extends E0 {
    int extra = 3;
    E1() {
        this("one");
    }
    E1(String s) {
        super(s);
    }
}

class E2 extends E1 {
    E2() {
    }
    E2(String s) {
        super(s);
    }
    public String getMessage() {
        return "two";
    }
}
