package p05;

public class M {
    static int i0 = 3;
    static long l0 = 31105L;
    static int[] ia = {1, 2, 3, 4};
    static int[] ja = new int[5];
    static byte[] ba = {1, -1, 127, -128};
    static char[] ca = new char[4];
    static short[] ha = new short[4];
    static long[] la = new long[6];
    static A a0, a1;
    static I0 o0;
    static Object p0;
    static String s0 = "start";
    static A[] aa = new A[4];
    static A[] bb;
    static Object[] oa = new Object[4];
    static int[][] iia = new int[3][4];
    static StringBuffer sb = new StringBuffer();
    static int boom() {
        throw new E1("boom");
    }
    static int h0(int x, long y, Object p, int n) {
        if (n <= 0) return x;
        M.i0 *= x;
        try {
            M.aa[1] = M.a0;
            long v1 = ((((long) x) >>> M.i0) >>> M.o0.f(((I1) (Object) M.p0).f(M.o0.f(M.i0))));
        } catch (E1 v2) {
            System.out.println("E1 1");
            System.out.println(v2.getMessage());
            System.out.println(x);
        } catch (ArithmeticException v3) {
            System.out.println("ArithmeticException 2");
            M.a1.fi = (M.i0 >>> M.ha[1]);
        } catch (NumberFormatException v4) {
            System.out.println("NumberFormatException 3");
            if ((((y == (M.l0 | 64L)) && ((String) null).equals(M.a1)) ? C.si3 : ((M.i0++) & M.oa.length)) > 100) throw v4;
        } catch (IllegalArgumentException v5) {
            System.out.println("IllegalArgumentException 4");
        } catch (RuntimeException v6) {
            System.out.println("RuntimeException 5");
        }
        return ((32767 * x) % -5);
    }
    static int h1(int x, long y, Object p, int n) {
        if (n <= 0) return x;
        System.out.println(M.ja[M.ja[2]]);
        System.out.println(((y ^ M.l0) & M.la[2]));
        if ((!String.valueOf("x".charAt(x)).equals(M.p0))) {
            System.out.println((char) (97 + ((M.i0--) & 15)));
        } else {
            M.aa[2] = M.a1;
            System.out.println((char) (97 + ((((((Object) p) instanceof Object[]) ? new C(x).m0(M.oa.length) : (x--)) & (((byte) (M.i0 - 3)) >> ((int) ((long) x)))) & 15)));
        }
        String v7 = M.s0;
        return x;
    }
    static int h2(int x, long y, Object p, int n) {
        if (n <= 0) return x;
        Object v8 = p;
        String v9 = M.s0;
        byte[] v10 = new byte[4];
        for (int v11 = 0; v11 < 3; v11++) {
            System.out.println("ab");
        }
        return M.o0.f(M.ha[0]);
    }
    static void set() {
        a0 = new B(3);
        a1 = new D(5);
        o0 = new Q(6);
        p0 = a1;
        aa[0] = a0;
        aa[1] = a1;
        bb = new B[4];
        oa[0] = s0;
        oa[1] = ia;
        oa[2] = a0;
    }
    public static void main(String[] args) {
        int n = 3;
        try {
            set();
        } catch (Throwable t) {
            System.out.println("set");
        }
        long v12 = (64L / 7L);
        try {
            System.out.println((M.s0.charAt(1) << (M.ja[3] ^ M.s0.charAt(1))));
        } catch (Throwable t) {
            System.out.println("T");
            if (t instanceof E0) System.out.println(t.getMessage());
        }
        try {
            M.bb[3] = M.a0;
        } catch (Throwable t) {
            System.out.println("T");
            if (t instanceof E0) System.out.println(t.getMessage());
        }
        try {
            if (((M.i0 >>> 0) == M.i0)) {
                System.out.println(M.iia[2][3]);
                M.oa[1] = M.p0;
            } else {
                M.i0 ^= (M.ia.length ^ 255);
            }
        } catch (Throwable t) {
            System.out.println("T");
            if (t instanceof E0) System.out.println(t.getMessage());
        }
        try {
            System.out.println(M.i0);
        } catch (Throwable t) {
            System.out.println("T");
            if (t instanceof E0) System.out.println(t.getMessage());
        }
        try {
            M.sb.append(M.a0.name(127));
        } catch (Throwable t) {
            System.out.println("T");
            if (t instanceof E0) System.out.println(t.getMessage());
        }
        try {
            try {
                System.out.println(M.l0);
            } catch (E2 v13) {
                System.out.println("E2 6");
                System.out.println(v13.getMessage());
            } catch (ArithmeticException v14) {
                System.out.println("ArithmeticException 7");
            } catch (ClassCastException v15) {
                System.out.println("ClassCastException 8");
            } catch (ArrayStoreException v16) {
                System.out.println("ArrayStoreException 9");
                long v17 = 63L;
            } catch (LinkageError v18) {
                System.out.println("LinkageError 10");
                if (((int) M.l0) > 100) throw v18;
            }
        } catch (Throwable t) {
            System.out.println("T");
            if (t instanceof E0) System.out.println(t.getMessage());
        }
        try {
            System.out.println(h0((M.i0--), M.a1.wide(M.la[2], ((M.i0 | (-1)) / M.s0.length())), M.p0, n - 1));
        } catch (Throwable t) {
            System.out.println("T");
            if (t instanceof E0) System.out.println(t.getMessage());
        }
        try {
            System.arraycopy(M.oa, 3, M.oa, 3, 0);
        } catch (Throwable t) {
            System.out.println("T");
            if (t instanceof E0) System.out.println(t.getMessage());
        }
        try {
            M.i0 -= M.ca[(S1.x | B.si2)];
        } catch (Throwable t) {
            System.out.println("T");
            if (t instanceof E0) System.out.println(t.getMessage());
        }
        String v19 = M.s0;
        try {
            System.arraycopy(M.la, 3, M.ja, 1, 2);
        } catch (Throwable t) {
            System.out.println("T");
            if (t instanceof E0) System.out.println(t.getMessage());
        }
        try {
            M.i0 += M.i0;
        } catch (Throwable t) {
            System.out.println("T");
            if (t instanceof E0) System.out.println(t.getMessage());
        }
        try {
            D.sd ^= M.i0;
        } catch (Throwable t) {
            System.out.println("T");
            if (t instanceof E0) System.out.println(t.getMessage());
        }
        M.oa[0] = M.p0;
        try {
            M.i0 *= M.iia[0][2];
        } catch (Throwable t) {
            System.out.println("T");
            if (t instanceof E0) System.out.println(t.getMessage());
        }
        try {
            M.ha[3] = (short) 32767;
        } catch (Throwable t) {
            System.out.println("T");
            if (t instanceof E0) System.out.println(t.getMessage());
        }
        try {
            M.i0 >>= ((byte) 255);
        } catch (Throwable t) {
            System.out.println("T");
            if (t instanceof E0) System.out.println(t.getMessage());
        }
        try {
            B.si2 += (C.si3 / ((int) (((long) (-1)) ^ v12)));
        } catch (Throwable t) {
            System.out.println("T");
            if (t instanceof E0) System.out.println(t.getMessage());
        }
        try {
            M.ha[1] = (short) M.sb.length();
        } catch (Throwable t) {
            System.out.println("T");
            if (t instanceof E0) System.out.println(t.getMessage());
        }
        try {
            System.out.println(String.valueOf(M.ha[0]));
        } catch (Throwable t) {
            System.out.println("T");
            if (t instanceof E0) System.out.println(t.getMessage());
        }
        switch (M.s0.charAt(((((Object) M.p0) != (Object) M.p0) ? M.ha[1] : (7 & M.i0))) % 5) {
            case 1: System.out.println(128);
            case 100: M.oa[2] = M.ja;
            default: System.out.println("d");
        }
        try {
            System.out.println("x");
        } catch (Throwable t) {
            System.out.println("T");
            if (t instanceof E0) System.out.println(t.getMessage());
        }
        try {
            M.bb[((M.i0 % M.i0) - M.a1.m0(2))] = M.a1;
        } catch (Throwable t) {
            System.out.println("T");
            if (t instanceof E0) System.out.println(t.getMessage());
        }
        System.out.println(i0);
        System.out.println(sb.toString());
    }
}

interface I0 {
    int f(int x);
}

interface I1 extends I0 {
    int K = 77;
    String NAME = "I1";
    int g(int x, long y);
}

abstract class A implements I0 {
    int fi;
    byte fb;
    short fs;
    char fc;
    long fl;
    boolean fz;
    A next;
    static int si = 6;
    static {
        System.out.println("init A");
    }
    A(int x) {
        fi = x;
        fl = x * 3L;
    }
    A() {
        this(4);
    }
    int m0(int x) {
        System.out.println(((char) x));
        return (((String) null).equals(M.p0) ? (x ^ M.i0) : M.a1.fc);
    }
    abstract int m1(int x);
    public int f(int x) {
        return m0(x) + 1;
    }
    long wide(long y, int x) {
        return y * 31 + x;
    }
    A me() {
        return this;
    }
    String name(int x) {
        return "A";
    }
}

class B extends A {
    static int si2 = 5;
    int fi2;
    B(int x) {
        super(x + 1);
        fi2 = x;
        next = this;
    }
    int m1(int x) {
        return m0(x) - fi2;
    }
    int m0(int x) {
        return super.m0(x) * 2;
    }
    String name(int x) {
        return "B".concat(String.valueOf(x));
    }
}

class C extends A {
    static int si3;
    static {
        System.out.println("init C");
        int q = 1 / (M.i0 & 1);
        System.out.println(q);
    }
    C(int x) {
        super(x);
        fb = (byte) x;
    }
    int m1(int x) {
        M.a1.fi = M.ja[(M.bb.length - (M.i0 ^ M.i0))];
        return M.a1.m1((x | (-68256)));
    }
    long wide(long y, int x) {
        return super.wide(x, (int) y);
    }
    A me() {
        return next;
    }
}

class D extends B implements I1 {
    static int sd = B.si2 + 1;
    D(int x) {
        super(x);
    }
    public int g(int x, long y) {
        return x + (int) y;
    }
    String name(int x) {
        return super.name(x).concat("D");
    }
}

final class Q implements I1 {
    private int h;
    static {
        System.out.println("init Q");
        if (M.i0 % 2 == 0) M.boom();
    }
    Q(int x) {
        h = x;
    }
    public int f(int x) {
        return h ^ x;
    }
    public int g(int x, long y) {
        return h;
    }
}

class S0 {
    static int x = 1;
    static {
        System.out.println("init S0");
        S0.x = 9;
    }
}

class S1 {
    static final String T = "tee";
    static int x = S0.x + 2;
    static {
        System.out.println("init S1");
        if (M.i0 % 2 == 0) M.boom();
    }
}

class E0 extends RuntimeException {
    E0() {
        super();
    }
    E0(String s) {
        super(s);
    }
}

class E1 extends E0 {
    int extra = 3;
    E1() {
        this("one");
    }
    E1(String s) {
        super(s);
    }
}

class E2 extends E1 {
    E2() {
    }
    E2(String s) {
        super(s);
    }
    public String getMessage() {
        return "two";
    }
}
