package p12;

public class M {
    static int i0 = 5;
    static long l0 = 2501L;
    static int[] ia = {1, 2, 3, 4};
    static int[] ja = new int[5];
    static byte[] ba = {1, -1, 127, -128};
    static char[] ca = new char[4];
    static short[] ha = new short[4];
    static long[] la = new long[6];
    static A a0, a1;
    static I0 o0;
    static Object p0;
    static String s0 = "start";
    static A[] aa = new A[4];
    static A[] bb;
    static Object[] oa = new Object[4];
    static int[][] iia = new int[3][4];
    static StringBuffer sb = new StringBuffer();
    static int boom() {
        throw new E1("boom");
    }
    static int h0(int x, long y, Object p, int n) {
        if (n <= 0) return x;
        System.out.println(M.s0);
        M.oa[1] = M.p0;
        try {
            M.ba[M.ba[M.i0]] = (byte) M.iia[(h2(x, M.l0, p, n - 1) * (x | M.i0))][1];
        } catch (IndexOutOfBoundsException v2) {
            System.out.println("IndexOutOfBoundsException 1");
        } catch (ArrayStoreException v3) {
            System.out.println("ArrayStoreException 2");
            byte[] v4 = new byte[(((int) 1234567890123L) + x)];
        } catch (NumberFormatException v5) {
            System.out.println("NumberFormatException 3");
            M.sb.append((x ^ M.iia[3][0]));
        } catch (E0 v6) {
            System.out.println("E0 4");
            System.out.println(v6.getMessage());
            System.out.println(0);
        } catch (LinkageError v7) {
            System.out.println("LinkageError 5");
            int v8 = ((M.i0 & M.sb.length()) + new C(M.ja[M.i0]).fb);
        } catch (Throwable v9) {
            System.out.println("Throwable 6");
        }
        long v10 = y;
        return ((M.i0 | x) + M.a0.m1(x));
    }
    static int h1(int x, long y, Object p, int n) {
        if (n <= 0) return x;
        if ((new Q(x).f(M.ca[3]) == S1.x)) {
            M.a0.me().fb = (byte) M.i0;
        } else {
            M.la[3] = (M.a0.wide(((long) x), (M.o0.f(7) | M.i0)) / M.l0);
            System.out.println(M.s0);
        }
        System.out.println(63L);
        return M.ca[0];
    }
    static int h2(int x, long y, Object p, int n) {
        if (n <= 0) return x;
        int v11 = M.o0.f(x);
        M.sb.append("x");
        return (M.i0 & M.s0.length());
    }
    static void set() {
        a0 = new B(3);
        a1 = new D(5);
        o0 = new Q(6);
        p0 = a1;
        aa[0] = a0;
        aa[1] = a1;
        bb = new B[4];
        oa[0] = s0;
        oa[1] = ia;
        oa[2] = a0;
    }
    public static void main(String[] args) {
        int n = 3;
        try {
            set();
        } catch (Throwable t) {
            System.out.println("set");
        }
        try {
            try {
                M.oa[M.i0] = M.p0;
                new D(M.a0.m1(h2(M.i0, M.l0, M.p0, n - 1))).fc = (char) M.ca[2];
            } catch (StringIndexOutOfBoundsException v12) {
                System.out.println("StringIndexOutOfBoundsException 7");
            } catch (IndexOutOfBoundsException v13) {
                System.out.println("IndexOutOfBoundsException 8");
                M.sb.append(((((Object) M.ja) == (Object) M.p0) && (((M.i0 / 7) != (true ? 5 : (-1))) || (((Object) M.p0) instanceof B))));
            } catch (NullPointerException v14) {
                System.out.println("NullPointerException 9");
                if (M.i0 > 100) throw v14;
            } catch (IllegalArgumentException v15) {
                System.out.println("IllegalArgumentException 10");
                System.out.println(M.sb.length());
                if (M.ca[1] > 100) throw v15;
            } catch (ExceptionInInitializerError v16) {
                System.out.println("ExceptionInInitializerError 11");
                if (M.a0.m1((M.i0 + ((A) (Object) M.p0).m1((M.i0 % 88124)))) > 100) throw v16;
            }
        } catch (Throwable t) {
            System.out.println("T");
            if (t instanceof E0) System.out.println(t.getMessage());
        }
        try {
            System.out.println((M.la[1] | ((M.la[0] << M.iia[3][3]) % 7L)));
        } catch (Throwable t) {
            System.out.println("T");
            if (t instanceof E0) System.out.println(t.getMessage());
        }
        A v17 = new C(M.i0);
        try {
            System.arraycopy(M.oa, 3, M.oa, D.sd, 1);
        } catch (Throwable t) {
            System.out.println("T");
            if (t instanceof E0) System.out.println(t.getMessage());
        }
        String v18 = "a longer text".substring(3, 1);
        String v19 = M.sb.toString();
        try {
            M.oa[1] = M.p0;
        } catch (Throwable t) {
            System.out.println("T");
            if (t instanceof E0) System.out.println(t.getMessage());
        }
        int v20 = v17.next.m1(M.a0.fs);
        try {
            M.sb.append(h2(((char) ((A) null).fs), ((long) C.si3), M.ja, n - 1));
        } catch (Throwable t) {
            System.out.println("T");
            if (t instanceof E0) System.out.println(t.getMessage());
        }
        try {
            System.arraycopy(M.aa, 3, M.bb, 2, 2);
        } catch (Throwable t) {
            System.out.println("T");
            if (t instanceof E0) System.out.println(t.getMessage());
        }
        I0 v21 = ((I0) M.a0);
        try {
            System.out.println(M.s0.concat(((String) null)));
        } catch (Throwable t) {
            System.out.println("T");
            if (t instanceof E0) System.out.println(t.getMessage());
        }
        try {
            M.la[3] = ((((M.l0 & M.l0) >>> h2(M.i0, 63L, M.p0, n - 1)) >> String.valueOf(1234567890123L).charAt(0)) % 64L);
        } catch (Throwable t) {
            System.out.println("T");
            if (t instanceof E0) System.out.println(t.getMessage());
        }
        try {
            M.sb.append((M.a1.fl * 255L));
        } catch (Throwable t) {
            System.out.println("T");
            if (t instanceof E0) System.out.println(t.getMessage());
        }
        System.out.println(i0);
        System.out.println(sb.toString());
    }
}

interface I0 {
    int f(int x);
}

interface I1 extends I0 {
    int K = 77;
    String NAME = "I1";
    int g(int x, long y);
}

abstract class A implements I0 {
    int fi;
    byte fb;
    short fs;
    char fc;
    long fl;
    boolean fz;
    A next;
    static int si = 4;
    static {
        System.out.println("init A");
        int q = 1 / (M.i0 & 1);
        System.out.println(q);
    }
    A(int x) {
        fi = x;
        fl = x * 3L;
    }
    A() {
        this(4);
    }
    int m0(int x) {
        B.si2 += 65536;
        return M.i0;
    }
    abstract int m1(int x);
    public int f(int x) {
        return m0(x) + 1;
    }
    long wide(long y, int x) {
        return y * 31 + x;
    }
    A me() {
        return this;
    }
    String name(int x) {
        return "A";
    }
}

class B extends A {
    static int si2 = 5;
    static {
        System.out.println("init B");
        int q = 1 / (M.i0 & 1);
        System.out.println(q);
    }
    int fi2;
    B(int x) {
        super(x + 1);
        fi2 = x;
        next = this;
    }
    int m1(int x) {
        return m0(x) - fi2;
    }
    String name(int x) {
        return "B".concat(String.valueOf(x));
    }
}

class C extends A {
    static int si3;
    static {
        System.out.println("init C");
        S0.x = 9;
    }
    C(int x) {
        fb = (byte) x;
    }
    int m1(int x) {
        int v1 = (M.ia[0] + (((B) M.a0).m1(x) << M.i0));
        return M.la.length;
    }
}

class D extends B implements I1 {
    static int sd = 7;
    static {
        System.out.println("init D");
        int q = 1 / (M.i0 & 1);
        System.out.println(q);
    }
    D(int x) {
        super(x);
    }
    public int g(int x, long y) {
        return x + (int) y;
    }
    String name(int x) {
        return super.name(x).concat("D");
    }
}

final class Q implements I1 {
    private int h;
    static {
        System.out.println("init Q");
        if (M.i0 % 2 == 0) M.boom();
    }
    Q(int x) {
        h = x;
    }
    public int f(int x) {
        return h ^ x;
    }
    public int g(int x, long y) {
        return h;
    }
}

class S0 {
    static int x = 1;
    static {
        System.out.println("init S0");
        if (M.i0 % 2 == 0) M.boom();
    }
}

class S1 {
    static final String T = "tee";
    static int x = S0.x + 2;
    static {
        System.out.println("init S1");
    }
}

class E0 extends RuntimeException {
    E0() {
        super();
    }
    E0(String s) {
        super(s);
    }
}

class E1 extends E0 {
    int extra = 3;
    E1() {
        this("one");
    }
    E1(String s) {
        super(s);
    }
}

class E2 extends E1 {
    E2() {
    }
    E2(String s) {
        super(s);
    }
    public String getMessage() {
        return "two";
    }
}
