package p29;

public class M {
    static int i0 = 1;
    static long l0 = 37753L;
    static int[] ia = {1, 2, 3, 4};
    static int[] ja = new int[5];
    static byte[] ba = {1, -1, 127, -128};
    static char[] ca = new char[4];
    static short[] ha = new short[4];
    static long[] la = new long[6];
    static A a0, a1;
    static I0 o0;
    static Object p0;
    static String s0 = "start";
    static A[] aa = new A[4];
    static A[] bb;
    static Object[] oa = new Object[4];
    static int[][] iia = new int[3][4];
    static StringBuffer sb = new StringBuffer();
    static int boom() {
        throw new E1("boom");
    }
    static int h0(int x, long y, Object p, int n) {
        if (n <= 0) return x;
        System.out.println((3 >= M.i0));
        I0 v1 = M.o0;
        M.a0.me().fl += ((long) ((char) M.ba[3]));
        return M.a0.next.m1(((int) M.l0));
    }
    static int h1(int x, long y, Object p, int n) {
        if (n <= 0) return x;
        I0 v2 = M.o0;
        for (int v3 = 0; v3 < 3; v3++) {
            System.arraycopy(M.ba, 0, M.ba, new StringBuffer().append(x).append("-").append(M.l0).append(true).toString().charAt(1), 0);
        }
        return M.o0.f((x + x));
    }
    static int h2(int x, long y, Object p, int n) {
        if (n <= 0) return x;
        System.out.println(M.s0);
        try {
            System.out.println(M.ba[0]);
            System.arraycopy(M.oa, 2, M.oa, 2, 1);
        } catch (ArrayIndexOutOfBoundsException v4) {
            System.out.println("ArrayIndexOutOfBoundsException 1");
        } catch (NullPointerException v5) {
            System.out.println("NullPointerException 2");
        } catch (NumberFormatException v6) {
            System.out.println("NumberFormatException 3");
            System.out.println(String.valueOf(((true ? x : M.i0) / 10)));
        } catch (E0 v7) {
            System.out.println("E0 4");
            System.out.println(v7.getMessage());
            System.arraycopy(M.bb, 2, M.bb, 0, 2);
        } catch (ExceptionInInitializerError v8) {
            System.out.println("ExceptionInInitializerError 5");
        } catch (LinkageError v9) {
            System.out.println("LinkageError 6");
        }
        return (A.si ^ M.i0);
    }
    static void set() {
        a0 = new B(3);
        a1 = new D(5);
        o0 = new Q(6);
        p0 = a1;
        aa[0] = a0;
        aa[1] = a1;
        bb = new B[4];
        oa[0] = s0;
        oa[1] = ia;
        oa[2] = a0;
    }
    public static void main(String[] args) {
        int n = 3;
        try {
            set();
        } catch (Throwable t) {
            System.out.println("set");
        }
        try {
            ((A) null).fl += (M.l0 + M.la[2]);
        } catch (Throwable t) {
            System.out.println("T");
            if (t instanceof E0) System.out.println(t.getMessage());
        }
        try {
            System.out.println((M.sb.length() > h1(h1(M.ia.length, M.l0, ((Object) null), n - 1), M.l0, M.p0, n - 1)));
        } catch (Throwable t) {
            System.out.println("T");
            if (t instanceof E0) System.out.println(t.getMessage());
        }
        try {
            switch (((A) (Object) M.p0).m1(M.ba[2]) ) {
                case 0: System.out.println(M.s0);
                break;
                case 5: ;
                case 100: ;
                break;
                case 65536: M.sb.append(M.s0);
                break;
                default: System.out.println("d");
            }
        } catch (Throwable t) {
            System.out.println("T");
            if (t instanceof E0) System.out.println(t.getMessage());
        }
        try {
            System.out.println(M.sb.length());
        } catch (Throwable t) {
            System.out.println("T");
            if (t instanceof E0) System.out.println(t.getMessage());
        }
        try {
            System.out.println(0L);
        } catch (Throwable t) {
            System.out.println("T");
            if (t instanceof E0) System.out.println(t.getMessage());
        }
        try {
            M.aa[1] = new D(M.i0);
        } catch (Throwable t) {
            System.out.println("T");
            if (t instanceof E0) System.out.println(t.getMessage());
        }
        try {
            M.aa[3] = M.a1;
        } catch (Throwable t) {
            System.out.println("T");
            if (t instanceof E0) System.out.println(t.getMessage());
        }
        long[] v10 = new long[3];
        try {
            M.aa[(M.i0 & M.a0.m0(31))] = new D(M.ja[1]);
        } catch (Throwable t) {
            System.out.println("T");
            if (t instanceof E0) System.out.println(t.getMessage());
        }
        try {
            System.out.println((M.i0 & M.i0));
        } catch (Throwable t) {
            System.out.println("T");
            if (t instanceof E0) System.out.println(t.getMessage());
        }
        try {
            M.sb.append(M.a1.name(M.i0));
        } catch (Throwable t) {
            System.out.println("T");
            if (t instanceof E0) System.out.println(t.getMessage());
        }
        try {
            try {
                for (int v11 = 0; v11 < 1; v11++) {
                    switch (M.iia[0][3] ) {
                        case 65536: System.out.println(M.i0);
                        default: System.out.println("d");
                    }
                    String v12 = "ab";
                }
            } catch (E1 v13) {
                System.out.println("E1 7");
                System.out.println(v13.getMessage());
                long[] v14 = new long[3];
            } catch (ArithmeticException v15) {
                System.out.println("ArithmeticException 8");
                System.out.println((char) (97 + (((short) M.a1.m1(M.s0.charAt(1))) & 15)));
            } catch (NegativeArraySizeException v16) {
                System.out.println("NegativeArraySizeException 9");
            }
        } catch (Throwable t) {
            System.out.println("T");
            if (t instanceof E0) System.out.println(t.getMessage());
        }
        System.out.println(i0);
        System.out.println(sb.toString());
    }
}

interface I0 {
    int f(int x);
}

interface I1 extends I0 {
    int K = 77;
    String NAME = "I1";
    int g(int x, long y);
}

abstract class A implements I0 {
    int fi;
    byte fb;
    short fs;
    char fc;
    long fl;
    boolean fz;
    A next;
    static int si = 4;
    static {
        System.out.println("init A");
        System.out.println(S0.x);
    }
    A(int x) {
        fi = x;
        fl = x * 3L;
    }
    A() {
        this(4);
    }
    int m0(int x) {
        System.out.println(M.a1.fl);
        return ((M.i0 % x) ^ x);
    }
    abstract int m1(int x);
    public int f(int x) {
        return m0(x) + 1;
    }
    long wide(long y, int x) {
        return y * 31 + x;
    }
    A me() {
        return this;
    }
    String name(int x) {
        return "A";
    }
}

class B extends A {
    static int si2 = 5;
    static {
        System.out.println("init B");
        S0.x = 9;
    }
    int fi2;
    B(int x) {
        super(x + 1);
        fi2 = x;
        next = this;
    }
    int m1(int x) {
        return m0(x) - fi2;
    }
    int m0(int x) {
        return super.m0(x) * 2;
    }
    String name(int x) {
        return "B".concat(String.valueOf(x));
    }
}

class C extends A {
    static int si3;
    C(int x) {
        super(x);
        fb = (byte) x;
    }
    int m1(int x) {
        System.out.println((M.i0 ^ x));
        return ((x > M.i0) ? x : (M.i0 * x));
    }
    long wide(long y, int x) {
        return super.wide(x, (int) y);
    }
    A me() {
        return next;
    }
}

class D extends B implements I1 {
    static int sd = 7;
    D(int x) {
        super(x);
    }
    public int g(int x, long y) {
        return x + (int) y;
    }
    int m1(int x) {
        return super.m1(x) ^ 21;
    }
    String name(int x) {
        return super.name(x).concat("D");
    }
}

final class Q implements I1 {
    private int h;
    static {
        System.out.println("init Q");
        S0.x = 9;
    }
    Q(int x) {
        h = x;
    }
    public int f(int x) {
        return h ^ x;
    }
    public int g(int x, long y) {
        return h;
    }
}

class S0 {
    static int x = S1.x + 1;
    static {
        System.out.println("init S0");
        S0.x = 9;
    }
}

class S1 {
    static final String T = "tee";
    static int x = M.i0 / (M.i0 & 3);
    static {
        System.out.println("init S1");
        int q = 1 / (M.i0 & 1);
        System.out.println(q);
    }
}

class E0 extends RuntimeException {
    E0() {
        super();
    }
    E0(String s) {
        super(s);
    }
}

class E1 extends E0 {
    int extra = 3;
    E1() {
        this("one");
    }
    E1(String s) {
        super(s);
    }
}

class E2 extends E1 {
    E2() {
    }
    E2(String s) {
        super(s);
    }
    public String getMessage() {
        return "two";
    }
}
