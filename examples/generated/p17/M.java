package p17;

public class M {
    static int i0 = 2;
    static long l0 = 49454L;
    static int[] ia = {1, 2, 3, 4};
    static int[] ja = new int[5];
    static byte[] ba = {1, -1, 127, -128};
    static char[] ca = new char[4];
    static short[] ha = new short[4];
    static long[] la = new long[6];
    static A a0, a1;
    static I0 o0;
    static Object p0;
    static String s0 = "start";
    static A[] aa = new A[4];
    static A[] bb;
    static Object[] oa = new Object[4];
    static int[][] iia = new int[3][4];
    static StringBuffer sb = new StringBuffer();
    static int boom() {
        throw new E1("boom");
    }
    static int h0(int x, long y, Object p, int n) {
        if (n <= 0) return x;
        System.out.println(M.a0.name((M.i0++)));
        System.out.println(M.s0);
        try {
            M.bb[1] = M.a0;
            System.out.println((char) (97 + (x & 15)));
            System.out.println((char) (97 + ((M.a1.fb - M.sb.length()) & 15)));
        } catch (E2 v12) {
            System.out.println("E2 9");
            System.out.println(v12.getMessage());
        } catch (E1 v13) {
            System.out.println("E1 10");
            System.out.println(v13.getMessage());
        } catch (NumberFormatException v14) {
            System.out.println("NumberFormatException 11");
        } catch (IllegalArgumentException v15) {
            System.out.println("IllegalArgumentException 12");
        } catch (RuntimeException v16) {
            System.out.println("RuntimeException 13");
        } catch (LinkageError v17) {
            System.out.println("LinkageError 14");
        }
        return M.ba[1];
    }
    static int h1(int x, long y, Object p, int n) {
        if (n <= 0) return x;
        M.ia[2] = (int) (x * (-22479));
        long v18 = M.a0.wide(new D(M.ca[3]).wide(M.l0, ((((Object) p) == (Object) M.p0) ? M.o0.f(x) : ((short) x))), M.i0);
        x ^= (((int) (((long) x) + M.a0.fl)) - M.ba[M.a1.m0(M.i0)]);
        try {
            A.si = 31;
        } catch (E1 v19) {
            System.out.println("E1 15");
            System.out.println(v19.getMessage());
        } catch (IndexOutOfBoundsException v20) {
            System.out.println("IndexOutOfBoundsException 16");
            System.out.println(M.ca[C.si3]);
            if (M.a0.fb > 100) throw v20;
        } catch (E0 v21) {
            System.out.println("E0 17");
            System.out.println(v21.getMessage());
        }
        return M.ia[0];
    }
    static int h2(int x, long y, Object p, int n) {
        if (n <= 0) return x;
        System.out.println((char) (97 + (x & 15)));
        long v22 = M.a0.next.fl;
        return ((x / 1) * (3 * x));
    }
    static void set() {
        a0 = new B(3);
        a1 = new D(5);
        o0 = new Q(6);
        p0 = a1;
        aa[0] = a0;
        aa[1] = a1;
        bb = new B[4];
        oa[0] = s0;
        oa[1] = ia;
        oa[2] = a0;
    }
    public static void main(String[] args) {
        int n = 3;
        try {
            set();
        } catch (Throwable t) {
            System.out.println("set");
        }
        try {
            System.out.println((M.ia[0] < ((int) M.a0.wide((M.l0 * 9223372036854775807L), M.ia[2]))));
        } catch (Throwable t) {
            System.out.println("T");
            if (t instanceof E0) System.out.println(t.getMessage());
        }
        try {
            if ((((Object) M.p0) instanceof B)) {
                C.si3 = M.o0.f(M.ha[2]);
            } else {
            }
        } catch (Throwable t) {
            System.out.println("T");
            if (t instanceof E0) System.out.println(t.getMessage());
        }
        try {
            M.oa[2] = M.p0;
        } catch (Throwable t) {
            System.out.println("T");
            if (t instanceof E0) System.out.println(t.getMessage());
        }
        try {
            System.out.println(S1.x);
        } catch (Throwable t) {
            System.out.println("T");
            if (t instanceof E0) System.out.println(t.getMessage());
        }
        M.sb.append((M.l0 << h0(M.i0, M.a1.fl, M.bb, n - 1)));
        long[] v23 = new long[5];
        try {
            M.i0 = M.i0;
        } catch (Throwable t) {
            System.out.println("T");
            if (t instanceof E0) System.out.println(t.getMessage());
        }
        try {
            if (((M.l0 == M.a0.fl) ^ (!(!(7 > M.i0))))) {
                if (((-1) > ((int) M.l0))) {
                    M.a1.me().fl += ((long) (C.si3 / A.si));
                    System.arraycopy(M.ia, 0, M.ja, 1, 3);
                } else {
                    M.aa[3] = ((B) M.a0);
                }
            } else {
                System.out.println((char) (97 + (((A) null).m0((M.i0 & (M.ha[0] & M.i0))) & 15)));
            }
        } catch (Throwable t) {
            System.out.println("T");
            if (t instanceof E0) System.out.println(t.getMessage());
        }
        int v24 = new StringBuffer().append(M.i0).append("-").append((4294967296L + M.l0)).append((M.i0 >= (-1))).toString().substring(0, M.a1.fi).length();
        try {
            M.sb.append(M.sb.toString());
        } catch (Throwable t) {
            System.out.println("T");
            if (t instanceof E0) System.out.println(t.getMessage());
        }
        try {
            M.a1.fl += M.l0;
        } catch (Throwable t) {
            System.out.println("T");
            if (t instanceof E0) System.out.println(t.getMessage());
        }
        System.out.println(M.s0);
        try {
            System.out.println(v24);
        } catch (Throwable t) {
            System.out.println("T");
            if (t instanceof E0) System.out.println(t.getMessage());
        }
        try {
            System.out.println(M.iia.length);
        } catch (Throwable t) {
            System.out.println("T");
            if (t instanceof E0) System.out.println(t.getMessage());
        }
        try {
            System.arraycopy(M.ja, M.sb.length(), M.ja, 3, (h2(v24, M.l0, M.p0, n - 1) / 10));
        } catch (Throwable t) {
            System.out.println("T");
            if (t instanceof E0) System.out.println(t.getMessage());
        }
        System.out.println(i0);
        System.out.println(sb.toString());
    }
}

interface I0 {
    int f(int x);
}

interface I1 extends I0 {
    int K = 77;
    String NAME = "I1";
    int g(int x, long y);
}

abstract class A implements I0 {
    int fi;
    byte fb;
    short fs;
    char fc;
    long fl;
    boolean fz;
    A next;
    static int si = 1;
    static {
        System.out.println("init A");
        S0.x = 9;
    }
    A(int x) {
        fi = x;
        fl = x * 3L;
    }
    A() {
        this(4);
    }
    int m0(int x) {
        try {
            System.out.println((((Object) new Q(M.la.length)) == (Object) M.p0));
            System.out.println(((int) (((A) null).wide(M.la[0], M.ca[1]) ^ (M.l0 >>> ((-128) - 31)))));
        } catch (E1 v1) {
            System.out.println("E1 1");
            System.out.println(v1.getMessage());
            A.si = x;
        } catch (ArrayIndexOutOfBoundsException v2) {
            System.out.println("ArrayIndexOutOfBoundsException 2");
        } catch (IndexOutOfBoundsException v3) {
            System.out.println("IndexOutOfBoundsException 3");
            System.out.println((char) (97 + (x & 15)));
        } catch (NullPointerException v4) {
            System.out.println("NullPointerException 4");
            int v5 = ((M.ha[0] ^ M.a1.m1((5 - M.i0))) - M.i0);
        } catch (ClassCastException v6) {
            System.out.println("ClassCastException 5");
        } catch (NegativeArraySizeException v7) {
            System.out.println("NegativeArraySizeException 6");
            long v8 = (M.l0 % (M.a0.wide((M.l0 >> M.i0), M.bb.length) / 3L));
            if (M.aa[3].m0(M.iia[1][(x | M.i0)]) > 100) throw v7;
        } catch (ArrayStoreException v9) {
            System.out.println("ArrayStoreException 7");
            M.bb[1] = M.a1.me();
        } catch (RuntimeException v10) {
            System.out.println("RuntimeException 8");
            System.out.println(M.a0.name(A.si));
        }
        return String.valueOf(x).charAt(2);
    }
    abstract int m1(int x);
    public int f(int x) {
        return m0(x) + 1;
    }
    long wide(long y, int x) {
        return y * 31 + x;
    }
    A me() {
        return this;
    }
    String name(int x) {
        return "A";
    }
}

class B extends A {
    static int si2 = 5;
    static {
        System.out.println("init B");
        S0.x = 9;
    }
    int fi2;
    B(int x) {
        super(x + 1);
        fi2 = x;
        next = this;
    }
    int m1(int x) {
        return m0(x) - fi2;
    }
    String name(int x) {
        return "B".concat(String.valueOf(x));
    }
}

class C extends A {
    static int si3;
    C(int x) {
        super(x);
        fb = (byte) x;
    }
    int m1(int x) {
        Object[] v11 = new Object[5];
        return x;
    }
    A me() {
        return next;
    }
}

class D extends B implements I1 {
    static int sd = S1.x;
    static {
        System.out.println("init D");
        System.out.println(S0.x);
    }
    D(int x) {
        super(x);
    }
    public int g(int x, long y) {
        return x + (int) y;
    }
    int m1(int x) {
        return super.m1(x) ^ 21;
    }
    String name(int x) {
        return super.name(x).concat("D");
    }
}

final class Q implements I1 {
    private int h;
    static {
        System.out.println("init Q");
    }
    Q(int x) {
        h = x;
    }
    public int f(int x) {
        return h ^ x;
    }
    public int g(int x, long y) {
        return h;
    }
}

class S0 {
    static int x = 1;
    static {
        System.out.println("init S0");
    }
}

class S1 {
    static final String T = "tee";
    static int x = M.i0 / (M.i0 & 3);
    static {
        System.out.println("init S1");
        S0.x = 9;
    }
}

class E0 extends RuntimeException {
    E0() {
        super();
    }
    E0(String s) {
        super(s);
    }
}

class E1 extends E0 {
    int extra = 3;
    E1() {
        this("one");
    }
    E1(String s) {
        super(s);
    }
}

class E2 extends E1 {
    E2() {
    }
    E2(String s) {
        super(s);
    }
    public String getMessage() {
        return "two";
    }
}
