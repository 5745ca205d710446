package p07;

public class M {
    static int i0 = 8;
    static long l0 = 20828L;
    static int[] ia = {1, 2, 3, 4};
    static int[] ja = new int[5];
    static byte[] ba = {1, -1, 127, -128};
    static char[] ca = new char[4];
    static short[] ha = new short[4];
    static long[] la = new long[6];
    static A a0, a1;
    static I0 o0;
    static Object p0;
    static String s0 = "start";
    static A[] aa = new A[4];
    static A[] bb;
    static Object[] oa = new Object[4];
    static int[][] iia = new int[3][4];
    static StringBuffer sb = new StringBuffer();
    static int boom() {
        throw new E1("boom");
    }
    static int h0(int x, long y, Object p, int n) {
        if (n <= 0) return x;
        x -= (M.i0 ^ M.ha[0]);
        String v1 = M.s0;
        switch (65536 ) {
            case 0: ;
            break;
            case 3: C.si3 = M.i0;
            case 4: System.out.println(M.a1.name(S1.x));
            case 5: System.out.println(M.i0);
            break;
            default: System.out.println("d");
        }
        long[] v2 = new long[3];
        return M.a1.m1(M.la.length);
    }
    static int h1(int x, long y, Object p, int n) {
        if (n <= 0) return x;
        int v3 = M.a0.next.m0(M.a0.m1(((short) M.ia[3])));
        M.ia[0] += (int) M.s0.charAt(2);
        long v4 = ((M.la[M.i0] | 4294967296L) * (M.a1.next.wide(9223372036854775807L, M.a1.m1(v3)) & M.a0.wide(M.a1.wide(y, M.i0), 2)));
        return M.iia[M.i0][2];
    }
    static int h2(int x, long y, Object p, int n) {
        if (n <= 0) return x;
        M.a0.fb = (byte) h1(((A) (Object) M.p0).fc, new D(x).fl, M.p0, n - 1);
        ((A) (Object) p).fb = (byte) M.sb.length();
        return M.i0;
    }
    static void set() {
        a0 = new B(3);
        a1 = new D(5);
        o0 = new Q(6);
        p0 = a1;
        aa[0] = a0;
        aa[1] = a1;
        bb = new B[4];
        oa[0] = s0;
        oa[1] = ia;
        oa[2] = a0;
    }
    public static void main(String[] args) {
        int n = 3;
        try {
            set();
        } catch (Throwable t) {
            System.out.println("set");
        }
        try {
            for (int v5 = 0; v5 < 4; v5++) {
                A v6 = new D(Integer.parseInt("99999999999"));
            }
            byte[] v7 = new byte[3];
        } catch (IndexOutOfBoundsException v8) {
            System.out.println("IndexOutOfBoundsException 1");
            if ((7 < "".length())) {
                if ((((Object) M.p0) != (Object) M.p0)) {
                    System.out.println(("x".concat(M.s0).charAt(1) % 1));
                } else {
                    System.out.println((char) (97 + (M.i0 & 15)));
                    System.out.println((M.iia[2][2] | M.a1.me().m0(M.oa.length)));
                }
                System.out.println((char) (97 + (A.si & 15)));
            } else {
                ((A) (Object) M.p0).fs = (short) M.i0;
            }
        } catch (NullPointerException v9) {
            System.out.println("NullPointerException 2");
            M.sb.append((!(((M.l0 + M.l0) < M.l0) ^ (M.l0 < M.l0))));
        } catch (NegativeArraySizeException v10) {
            System.out.println("NegativeArraySizeException 3");
        } catch (LinkageError v11) {
            System.out.println("LinkageError 4");
        } catch (Throwable v12) {
            System.out.println("Throwable 5");
            System.out.println("a longer text");
        }
        System.out.println((char) (97 + (M.ia[3] & 15)));
        try {
            M.a0.fs = (short) (M.i0 / M.ca[1]);
        } catch (Throwable t) {
            System.out.println("T");
            if (t instanceof E0) System.out.println(t.getMessage());
        }
        try {
            System.out.println(128);
        } catch (Throwable t) {
            System.out.println("T");
            if (t instanceof E0) System.out.println(t.getMessage());
        }
        try {
            System.out.println((char) (97 + ((5 * M.sb.length()) & 15)));
        } catch (Throwable t) {
            System.out.println("T");
            if (t instanceof E0) System.out.println(t.getMessage());
        }
        M.sb.append((char) (121));
        try {
            M.i0 ^= M.a0.fb;
        } catch (Throwable t) {
            System.out.println("T");
            if (t instanceof E0) System.out.println(t.getMessage());
        }
        I0 v13 = M.o0;
        try {
            M.a0.fl += M.a1.wide((M.a1.wide((63L >>> M.i0), (M.i0++)) >>> M.sb.length()), ((byte) (M.i0 - M.i0)));
        } catch (Throwable t) {
            System.out.println("T");
            if (t instanceof E0) System.out.println(t.getMessage());
        }
        long v14 = M.a0.wide(1L, (h2(M.a1.fb, (64L ^ M.l0), M.bb, n - 1) / 7));
        try {
            M.bb[M.i0] = ((A) null);
        } catch (Throwable t) {
            System.out.println("T");
            if (t instanceof E0) System.out.println(t.getMessage());
        }
        try {
            switch (M.i0 & 7) {
                case 4: ;
                default: System.out.println("d");
            }
        } catch (Throwable t) {
            System.out.println("T");
            if (t instanceof E0) System.out.println(t.getMessage());
        }
        try {
            System.out.println(h1(((int) v14), 4294967296L, M.p0, n - 1));
        } catch (Throwable t) {
            System.out.println("T");
            if (t instanceof E0) System.out.println(t.getMessage());
        }
        for (int v15 = 0; v15 < 2; v15++) {
            switch (((33 & (((int) v14) + (M.i0 % 3))) + (M.a0.fb >> (M.sb.length() * (M.i0 - M.i0)))) ) {
                case 1: System.out.println((M.ha[3] != ((((-128) <= 32767) ? (M.i0 | M.i0) : (2147483647 - 0)) | A.si)));
                break;
                default: System.out.println("d");
            }
            System.out.println(String.valueOf(((long) M.ca[1])));
        }
        System.out.println(i0);
        System.out.println(sb.toString());
    }
}

interface I0 {
    int f(int x);
}

interface I1 extends I0 {
    int K = 77;
    String NAME = "I1";
    int g(int x, long y);
}

abstract class A implements I0 {
    int fi;
    byte fb;
    short fs;
    char fc;
    long fl;
    boolean fz;
    A next;
    static int si = 5;
    static {
        System.out.println("init A");
        S0.x = 9;
    }
    A(int x) {
        fi = x;
        fl = x * 3L;
    }
    A() {
        this(4);
    }
    int m0(int x) {
        x *= M.s0.length();
        return (6 / 1);
    }
    abstract int m1(int x);
    public int f(int x) {
        return m0(x) + 1;
    }
    long wide(long y, int x) {
        return y * 31 + x;
    }
    A me() {
        return this;
    }
    String name(int x) {
        return "A";
    }
}

class B extends A {
    static int si2 = 5;
    int fi2;
    B(int x) {
        super(x + 1);
        fi2 = x;
        next = this;
    }
    int m1(int x) {
        return m0(x) - fi2;
    }
    public int f(int x) {
        return x;
    }
    String name(int x) {
        return "B".concat(String.valueOf(x));
    }
}

class C extends A {
    static int si3;
    static {
        System.out.println("init C");
        M.i0 += 3;
    }
    C(int x) {
        super(x);
        fb = (byte) x;
    }
    int m1(int x) {
        System.out.println(((M.s0.length() << M.ca[0]) < ((int) (M.a0.fl + M.la[2]))));
        return M.i0;
    }
    long wide(long y, int x) {
        return super.wide(x, (int) y);
    }
    A me() {
        return next;
    }
}

class D extends B implements I1 {
    static int sd = S1.x;
    static {
        System.out.println("init D");
        if (M.i0 % 2 == 0) M.boom();
    }
    D(int x) {
        super(x);
    }
    public int g(int x, long y) {
        return x + (int) y;
    }
    String name(int x) {
        return super.name(x).concat("D");
    }
}

final class Q implements I1 {
    private int h;
    static {
        System.out.println("init Q");
        System.out.println(S0.x);
    }
    Q(int x) {
        h = x;
    }
    public int f(int x) {
        return h ^ x;
    }
    public int g(int x, long y) {
        return h;
    }
}

class S0 {
    static int x = S1.x + 1;
    static {
        System.out.println("init S0");
        M.i0 += 3;
    }
}

class S1 {
    static final String T = "tee";
    static int x = 2;
    static {
        System.out.println("init S1");
        S0.x = 9;
    }
}

class E0 extends RuntimeException {
    E0() {
        super();
    }
    E0(String s) {
        super(s);
    }
}

class E1 extends E0 {
    int extra = 3;
    E1() {
        this("one");
    }
    E1(String s) {
        super(s);
    }
}

class E2 extends E1 {
    E2() {
    }
    E2(String s) {
        super(s);
    }
    public String getMessage() {
        return "two";
    }
}
