package p02;

public class M {
    static int i0 = -3;
    static long l0 = 97243L;
    static int[] ia = {1, 2, 3, 4};
    static int[] ja = new int[5];
    static byte[] ba = {1, -1, 127, -128};
    static char[] ca = new char[4];
    static short[] ha = new short[4];
    static long[] la = new long[6];
    static A a0, a1;
    static I0 o0;
    static Object p0;
    static String s0 = "start";
    static A[] aa = new A[4];
    static A[] bb;
    static Object[] oa = new Object[4];
    static int[][] iia = new int[3][4];
    static StringBuffer sb = new StringBuffer();
    static int boom() {
        throw new E1("boom");
    }
    static int h0(int x, long y, Object p, int n) {
        if (n <= 0) return x;
        System.out.println((((Object) M.p0) == (Object) M.p0));
        long v1 = M.a1.wide(M.la[1], ((String) (Object) M.ja).charAt(0));
        System.out.println((!(!(((Object) p) == (Object) M.p0))));
        try {
            M.oa[(M.i0++)] = p;
            int v2 = M.sb.length();
        } catch (E1 v3) {
            System.out.println("E1 1");
            System.out.println(v3.getMessage());
        } catch (ArithmeticException v4) {
            System.out.println("ArithmeticException 2");
        } catch (StringIndexOutOfBoundsException v5) {
            System.out.println("StringIndexOutOfBoundsException 3");
        } catch (IndexOutOfBoundsException v6) {
            System.out.println("IndexOutOfBoundsException 4");
            System.out.println((M.la[0] / ((y * (M.l0 * M.l0)) >>> ((x / x) | x))));
        } catch (NullPointerException v7) {
            System.out.println("NullPointerException 5");
        } catch (ClassCastException v8) {
            System.out.println("ClassCastException 6");
            if ((x + ((char) 0)) > 100) throw v8;
        } catch (ExceptionInInitializerError v9) {
            System.out.println("ExceptionInInitializerError 7");
            M.sb.append((M.iia[M.a0.m0(M.i0)][1] == M.ja.length));
        } catch (LinkageError v10) {
            System.out.println("LinkageError 8");
        }
        return M.i0;
    }
    static int h1(int x, long y, Object p, int n) {
        if (n <= 0) return x;
        M.oa[1] = M.aa;
        System.out.println((char) (97 + ((new D(M.i0).m0(x) / 10) & 15)));
        M.sb.append(M.s0);
        return ((int) M.a1.fl);
    }
    static int h2(int x, long y, Object p, int n) {
        if (n <= 0) return x;
        M.ba[1] = (byte) (M.i0 - M.a0.m1((M.o0.f(M.i0) + 127)));
        try {
            System.out.println((x + ((int) ((long) (x - M.i0)))));
            I0 v11 = M.o0;
            M.bb[((int) (y ^ M.l0))] = M.a0;
        } catch (StringIndexOutOfBoundsException v12) {
            System.out.println("StringIndexOutOfBoundsException 9");
            try {
                M.a1.fz = (((Object) M.a1) != (Object) M.p0);
                System.out.println(M.s0.length());
            } catch (E2 v13) {
                System.out.println("E2 10");
                System.out.println(v13.getMessage());
                x ^= h0(M.i0, ((y | (M.l0 << x)) / 1L), M.oa[M.a1.m0(M.a1.fs)], n - 1);
            } catch (ArrayIndexOutOfBoundsException v14) {
                System.out.println("ArrayIndexOutOfBoundsException 11");
                System.out.println(((I0) (Object) p).f((M.ha[2147483647] + ((48055 | x) & (M.i0--)))));
            } catch (StringIndexOutOfBoundsException v15) {
                System.out.println("StringIndexOutOfBoundsException 12");
                System.out.println(M.la[3]);
            } catch (NegativeArraySizeException v16) {
                System.out.println("NegativeArraySizeException 13");
            } catch (NumberFormatException v17) {
                System.out.println("NumberFormatException 14");
                if ("x".charAt(2) > 100) throw v17;
            }
        } catch (IndexOutOfBoundsException v18) {
            System.out.println("IndexOutOfBoundsException 15");
            M.oa[2] = p;
        } catch (NegativeArraySizeException v19) {
            System.out.println("NegativeArraySizeException 16");
        } catch (Throwable v20) {
            System.out.println("Throwable 17");
            try {
                System.arraycopy(M.ia, 2, M.ja, 0, 1);
                System.out.println(S1.x);
            } catch (ArithmeticException v21) {
                System.out.println("ArithmeticException 18");
                new B(M.ha[1]).fi = M.ca[3];
                if (x > 100) throw v21;
            } catch (ArrayIndexOutOfBoundsException v22) {
                System.out.println("ArrayIndexOutOfBoundsException 19");
                System.arraycopy(M.ja, 0, M.ia, 3, 2);
            } catch (StringIndexOutOfBoundsException v23) {
                System.out.println("StringIndexOutOfBoundsException 20");
            } catch (IndexOutOfBoundsException v24) {
                System.out.println("IndexOutOfBoundsException 21");
            } catch (E0 v25) {
                System.out.println("E0 22");
                System.out.println(v25.getMessage());
            } catch (Throwable v26) {
                System.out.println("Throwable 23");
                System.out.println(new C(Integer.parseInt("12")).fs);
            }
        }
        System.out.println(M.ca[A.si]);
        M.a0.next = new B(M.ha[3]);
        return (M.a1.fc ^ x);
    }
    static void set() {
        a0 = new B(3);
        a1 = new D(5);
        o0 = new Q(6);
        p0 = a1;
        aa[0] = a0;
        aa[1] = a1;
        bb = new B[4];
        oa[0] = s0;
        oa[1] = ia;
        oa[2] = a0;
    }
    public static void main(String[] args) {
        int n = 3;
        try {
            set();
        } catch (Throwable t) {
            System.out.println("set");
        }
        long v27 = 9223372036854775807L;
        try {
            System.out.println(M.a1.m1((3 ^ M.sb.length())));
        } catch (Throwable t) {
            System.out.println("T");
            if (t instanceof E0) System.out.println(t.getMessage());
        }
        try {
            M.ha[2] = (short) 3;
        } catch (Throwable t) {
            System.out.println("T");
            if (t instanceof E0) System.out.println(t.getMessage());
        }
        int v28 = (M.i0--);
        try {
            System.out.println((char) (97 + ((M.i0++) & 15)));
        } catch (Throwable t) {
            System.out.println("T");
            if (t instanceof E0) System.out.println(t.getMessage());
        }
        try {
            if (((M.la[2] * ((1234567890123L / 10L) | M.l0)) < M.la[M.ca[1]])) {
                M.sb.append(D.sd);
            } else {
                if ("a longer text".equals(M.p0)) {
                    System.arraycopy(M.ja, 1, M.ia, 2, 0);
                } else {
                }
            }
        } catch (Throwable t) {
            System.out.println("T");
            if (t instanceof E0) System.out.println(t.getMessage());
        }
        Object[] v29 = new String[3];
        try {
            M.oa[0] = v29;
        } catch (Throwable t) {
            System.out.println("T");
            if (t instanceof E0) System.out.println(t.getMessage());
        }
        try {
            M.i0 >>= v28;
        } catch (Throwable t) {
            System.out.println("T");
            if (t instanceof E0) System.out.println(t.getMessage());
        }
        try {
            M.sb.append(M.s0.concat(((String) null)).substring(0, 2));
        } catch (Throwable t) {
            System.out.println("T");
            if (t instanceof E0) System.out.println(t.getMessage());
        }
        long v30 = (M.l0 >> M.iia[(v28--)][0]);
        try {
            v28 *= (h0(M.ca[3], M.la[3], M.p0, n - 1) - ((v28 ^ Integer.parseInt("")) % M.i0));
        } catch (Throwable t) {
            System.out.println("T");
            if (t instanceof E0) System.out.println(t.getMessage());
        }
        System.out.println(i0);
        System.out.println(sb.toString());
    }
}

interface I0 {
    int f(int x);
}

interface I1 extends I0 {
    int K = 77;
    String NAME = "I1";
    int g(int x, long y);
}

abstract class A implements I0 {
    int fi;
    byte fb;
    short fs;
    char fc;
    long fl;
    boolean fz;
    A next;
    static int si = 0;
    static {
        System.out.println("init A");
        System.out.println(S0.x);
    }
    A(int x) {
        fi = x;
        fl = x * 3L;
    }
    A() {
        this(4);
    }
    int m0(int x) {
        System.out.println((char) (97 + (M.i0 & 15)));
        return M.i0;
    }
    abstract int m1(int x);
    public int f(int x) {
        return m0(x) + 1;
    }
    long wide(long y, int x) {
        return y * 31 + x;
    }
    A me() {
        return this;
    }
    String name(int x) {
        return "A";
    }
}

class B extends A {
    static int si2 = 5;
    static {
        System.out.println("init B");
        M.i0 += 3;
    }
    int fi2;
    B(int x) {
        super(x + 1);
        fi2 = x;
        next = this;
    }
    int m1(int x) {
        return m0(x) - fi2;
    }
    public int f(int x) {
        return x;
    }
    String name(int x) {
        return "B".concat(String.valueOf(x));
    }
}

class C extends A {
    static int si3;
    C(int x) {
        super(x);
        fb = (byte) x;
    }
    int m1(int x) {
        System.out.println(x);
        return ((x | x) * (M.i0 * M.i0));
    }
    A me() {
        return next;
    }
}

class D extends B implements I1 {
    static int sd = M.i0 * 2;
    static {
        System.out.println("init D");
        int q = 1 / (M.i0 & 1);
        System.out.println(q);
    }
    D(int x) {
        super(x);
    }
    public int g(int x, long y) {
        return x + (int) y;
    }
    int m1(int x) {
        return super.m1(x) ^ 21;
    }
    String name(int x) {
        return super.name(x).concat("D");
    }
}

final class Q implements I1 {
    private int h;
    static {
        System.out.println("init Q");
        if (M.i0 % 2 == 0) M.boom();
    }
    Q(int x) {
        h = x;
    }
    public int f(int x) {
        return h ^ x;
    }
    public int g(int x, long y) {
        return h;
    }
}

class S0 {
    static int x = 1;
}

class S1 {
    static final String T = "tee";
    static int x = M.i0 / (M.i0 & 3);
    static {
        System.out.println("init S1");
        System.out.println(S0.x);
    }
}

class E0 extends RuntimeException {
    E0() {
        super();
    }
    E0(String s) {
        super(s);
    }
}

class E1 extends E0 {
    int extra = 3;
    E1() {
        this("one");
    }
    E1(String s) {
        super(s);
    }
}

class E2 extends E1 {
    E2() {
    }
    E2(String s) {
        super(s);
    }
    public String getMessage() {
        return "two";
    }
}
