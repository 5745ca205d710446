package p00;

public class M {
    static int i0 = 0;
    static long l0 = 53714L;
    static int[] ia = {1, 2, 3, 4};
    static int[] ja = new int[5];
    static byte[] ba = {1, -1, 127, -128};
    static char[] ca = new char[4];
    static short[] ha = new short[4];
    static long[] la = new long[6];
    static A a0, a1;
    static I0 o0;
    static Object p0;
    static String s0 = "start";
    static A[] aa = new A[4];
    static A[] bb;
    static Object[] oa = new Object[4];
    static int[][] iia = new int[3][4];
    static StringBuffer sb = new StringBuffer();
    static int boom() {
        throw new E1("boom");
    }
    static int h0(int x, long y, Object p, int n) {
        if (n <= 0) return x;
        System.out.println((M.s0.equals(p) || (y == M.l0)));
        A[] v2 = new D[5];
        return M.a1.m0((M.i0 - M.i0));
    }
    static int h1(int x, long y, Object p, int n) {
        if (n <= 0) return x;
        switch ((M.ca[M.i0] / 3) & 7) {
            case 0: ;
            break;
            case 1: M.ia[0] = (int) (M.ca[1] % -5);
            case 3: System.out.println(M.i0);
            break;
            default: System.out.println("d");
        }
        System.out.println(M.la[1]);
        return M.ca[1];
    }
    static int h2(int x, long y, Object p, int n) {
        if (n <= 0) return x;
        System.out.println((char) (97 + (((int) M.a0.fl) & 15)));
        M.sb.append((char) (120));
        return x;
    }
    static void set() {
        a0 = new B(3);
        a1 = new D(5);
        o0 = new Q(6);
        p0 = a1;
        aa[0] = a0;
        aa[1] = a1;
        bb = new B[4];
        oa[0] = s0;
        oa[1] = ia;
        oa[2] = a0;
    }
    public static void main(String[] args) {
        int n = 3;
        try {
            set();
        } catch (Throwable t) {
            System.out.println("set");
        }
        try {
            M.oa[3] = M.p0;
        } catch (Throwable t) {
            System.out.println("T");
            if (t instanceof E0) System.out.println(t.getMessage());
        }
        M.sb.append(M.a1.next.name(M.ca[0]));
        long[] v3 = new long[2];
        try {
            System.out.println(M.s0);
        } catch (Throwable t) {
            System.out.println("T");
            if (t instanceof E0) System.out.println(t.getMessage());
        }
        int v4 = M.oa.length;
        try {
            try {
                System.out.println((M.s0.charAt(2) | M.i0));
                System.out.println(((M.iia[2][2] != ((int) (255L << M.i0))) ^ (M.i0 <= (((int) M.l0) + M.a0.m1(M.i0)))));
            } catch (ArithmeticException v5) {
                System.out.println("ArithmeticException 1");
            } catch (IndexOutOfBoundsException v6) {
                System.out.println("IndexOutOfBoundsException 2");
            } catch (IllegalArgumentException v7) {
                System.out.println("IllegalArgumentException 3");
                if ((v4++) > 100) throw v7;
            } catch (E0 v8) {
                System.out.println("E0 4");
                System.out.println(v8.getMessage());
            }
        } catch (Throwable t) {
            System.out.println("T");
            if (t instanceof E0) System.out.println(t.getMessage());
        }
        try {
            System.out.println(M.a0.fs);
        } catch (Throwable t) {
            System.out.println("T");
            if (t instanceof E0) System.out.println(t.getMessage());
        }
        try {
            System.out.println((((Object) M.ia) != (Object) M.p0));
        } catch (Throwable t) {
            System.out.println("T");
            if (t instanceof E0) System.out.println(t.getMessage());
        }
        try {
            System.out.println((M.l0 < M.a1.fl));
        } catch (Throwable t) {
            System.out.println("T");
            if (t instanceof E0) System.out.println(t.getMessage());
        }
        M.a1.me().fz = (((Integer.parseInt("12") / 10) >= Integer.parseInt("")) || String.valueOf((true ? M.i0 : M.i0)).equals(M.p0));
        M.oa[3] = M.p0;
        try {
            M.oa[3] = ((Object) null);
        } catch (Throwable t) {
            System.out.println("T");
            if (t instanceof E0) System.out.println(t.getMessage());
        }
        S0.x = M.i0;
        try {
            switch (M.s0.length() % 5) {
                case 0: System.out.println(M.aa.length);
                break;
                case 1: ;
                default: System.out.println("d");
            }
        } catch (Throwable t) {
            System.out.println("T");
            if (t instanceof E0) System.out.println(t.getMessage());
        }
        System.out.println(i0);
        System.out.println(sb.toString());
    }
}

interface I0 {
    int f(int x);
}

interface I1 extends I0 {
    int K = 77;
    String NAME = "I1";
    int g(int x, long y);
}

abstract class A implements I0 {
    int fi;
    byte fb;
    short fs;
    char fc;
    long fl;
    boolean fz;
    A next;
    static int si = 8;
    A(int x) {
        fi = x;
        fl = x * 3L;
    }
    A() {
        this(4);
    }
    int m0(int x) {
        A v1 = M.a1.next;
        return M.ca[0];
    }
    abstract int m1(int x);
    public int f(int x) {
        return m0(x) + 1;
    }
    long wide(long y, int x) {
        return y * 31 + x;
    }
    A me() {
        return this;
    }
    String name(int x) {
        return "A";
    }
}

class B extends A {
    static int si2 = 5;
    static {
        System.out.println("init B");
        M.i0 += 3;
    }
    int fi2;
    B(int x) {
        super(x + 1);
        fi2 = x;
        next = this;
    }
    int m1(int x) {
        return m0(x) - fi2;
    }
    int m0(int x) {
        return super.m0(x) * 2;
    }
    String name(int x) {
        return "B".concat(String.valueOf(x));
    }
}

class C extends A {
    static int si3;
    static {
        System.out.println("init C");
        M.i0 += 3;
    }
    C(int x) {
        fb = (byte) x;
    }
    int m1(int x) {
        M.a0.next = M.a0;
        return M.ha[1];
    }
}

class D extends B implements I1 {
    static int sd = 7;
    D(int x) {
        super(x);
    }
    public int g(int x, long y) {
        return x + (int) y;
    }
    String name(int x) {
        return super.name(x).concat("D");
    }
}

final class Q implements I1 {
    private int h;
    static {
        System.out.println("init Q");
        S0.x = 9;
    }
    Q(int x) {
        h = x;
    }
    public int f(int x) {
        return h ^ x;
    }
    public int g(int x, long y) {
        return h;
    }
}

class S0 {
    static int x = S1.x + 1;
}

class S1 {
    static final String T = "tee";
    static int x = 2;
    static {
        System.out.println("init S1");
        M.i0 += 3;
    }
}

class E0 extends RuntimeException {
    E0() {
        super();
    }
    E0(String s) {
        super(s);
    }
}

class E1 extends E0 {
    int extra = 3;
    E1() {
        this("one");
    }
    E1(String s) {
        super(s);
    }
}

class E2 extends E1 {
    E2() {
    }
    E2(String s) {
        super(s);
    }
    public String getMessage() {
        return "two";
    }
}
