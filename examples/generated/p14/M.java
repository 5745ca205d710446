package p14;

public class M {
    static int i0 = 4;
    static long l0 = 18008L;
    static int[] ia = {1, 2, 3, 4};
    static int[] ja = new int[5];
    static byte[] ba = {1, -1, 127, -128};
    static char[] ca = new char[4];
    static short[] ha = new short[4];
    static long[] la = new long[6];
    static A a0, a1;
    static I0 o0;
    static Object p0;
    static String s0 = "start";
    static A[] aa = new A[4];
    static A[] bb;
    static Object[] oa = new Object[4];
    static int[][] iia = new int[3][4];
    static StringBuffer sb = new StringBuffer();
    static int boom() {
        throw new E1("boom");
    }
    static int h0(int x, long y, Object p, int n) {
        if (n <= 0) return x;
        try {
            try {
                int[] v9 = new int[2];
            } catch (E1 v10) {
                System.out.println("E1 9");
                System.out.println(v10.getMessage());
            } catch (StringIndexOutOfBoundsException v11) {
                System.out.println("StringIndexOutOfBoundsException 10");
                System.out.println((char) (97 + (M.ca[2] & 15)));
                if ((x & (((x % 7) | M.a0.m0(M.i0)) ^ ((byte) h2(7, M.l0, p, n - 1)))) > 100) throw v11;
            } catch (NegativeArraySizeException v12) {
                System.out.println("NegativeArraySizeException 11");
            } catch (ArrayStoreException v13) {
                System.out.println("ArrayStoreException 12");
                long v14 = (M.a0.fl + y);
            } catch (E0 v15) {
                System.out.println("E0 13");
                System.out.println(v15.getMessage());
                System.out.println((char) (97 + (new B(M.ia[1]).name(((int) ((long) 33))).length() & 15)));
            } catch (ExceptionInInitializerError v16) {
                System.out.println("ExceptionInInitializerError 14");
            }
            if ((((char) Integer.parseInt("12")) != x)) {
                M.la[3] = ((M.a0.fl * y) / 1L);
                System.out.println("x");
            } else {
                byte[] v17 = new byte[1];
            }
        } catch (NullPointerException v18) {
            System.out.println("NullPointerException 15");
            int v19 = x;
            if (M.la.length > 100) throw v18;
        } catch (ArrayStoreException v20) {
            System.out.println("ArrayStoreException 16");
            System.out.println(M.i0);
        } catch (IllegalArgumentException v21) {
            System.out.println("IllegalArgumentException 17");
        } catch (ExceptionInInitializerError v22) {
            System.out.println("ExceptionInInitializerError 18");
        }
        int v23 = M.a1.fb;
        M.oa[2] = M.p0;
        return D.sd;
    }
    static int h1(int x, long y, Object p, int n) {
        if (n <= 0) return x;
        System.out.println((char) (97 + ((M.ia[0] % ((M.sb.length() - (M.i0 * M.i0)) << M.sb.length())) & 15)));
        System.out.println(((byte) M.a0.m0(M.a0.m0(Integer.parseInt("99999999999")))));
        return ((B) M.a1).fb;
    }
    static int h2(int x, long y, Object p, int n) {
        if (n <= 0) return x;
        long v24 = (M.l0 - M.a0.fl);
        System.out.println("12");
        return Integer.parseInt(" 3");
    }
    static void set() {
        a0 = new B(3);
        a1 = new D(5);
        o0 = new Q(6);
        p0 = a1;
        aa[0] = a0;
        aa[1] = a1;
        bb = new B[4];
        oa[0] = s0;
        oa[1] = ia;
        oa[2] = a0;
    }
    public static void main(String[] args) {
        int n = 3;
        try {
            set();
        } catch (Throwable t) {
            System.out.println("set");
        }
        System.out.println((char) (97 + (M.i0 & 15)));
        if ("ab".equals(M.oa[0])) throw new E0();
        Object v25 = M.p0;
        try {
            System.out.println(M.s0);
        } catch (Throwable t) {
            System.out.println("T");
            if (t instanceof E0) System.out.println(t.getMessage());
        }
        try {
            ((A) null).fi = M.ha[2];
        } catch (Throwable t) {
            System.out.println("T");
            if (t instanceof E0) System.out.println(t.getMessage());
        }
        try {
            System.out.println(Integer.parseInt("a longer text"));
        } catch (Throwable t) {
            System.out.println("T");
            if (t instanceof E0) System.out.println(t.getMessage());
        }
        System.out.println(M.l0);
        try {
            System.out.println((char) (97 + (M.ba[0] & 15)));
        } catch (Throwable t) {
            System.out.println("T");
            if (t instanceof E0) System.out.println(t.getMessage());
        }
        long[] v26 = new long[((int) M.la[1])];
        try {
            M.ba[2] = (byte) I1.K;
        } catch (Throwable t) {
            System.out.println("T");
            if (t instanceof E0) System.out.println(t.getMessage());
        }
        try {
            for (int v27 = 0; v27 < 2; v27++) {
                for (int v28 = 0; v28 < 2; v28++) {
                    M.i0 -= ((((Object) v25) instanceof I0) ? ((char) M.i0) : M.ia[3]);
                }
            }
        } catch (Throwable t) {
            System.out.println("T");
            if (t instanceof E0) System.out.println(t.getMessage());
        }
        try {
            System.out.println((((1L * M.l0) - (M.a1.fl >>> M.i0)) % 10L));
        } catch (Throwable t) {
            System.out.println("T");
            if (t instanceof E0) System.out.println(t.getMessage());
        }
        try {
            System.out.println(M.l0);
        } catch (Throwable t) {
            System.out.println("T");
            if (t instanceof E0) System.out.println(t.getMessage());
        }
        A[] v29 = new D[3];
        long v30 = (M.l0 - ((long) M.s0.length()));
        try {
            M.la[1] = ((64L >>> M.i0) >>> (Integer.parseInt("007") - M.i0));
        } catch (Throwable t) {
            System.out.println("T");
            if (t instanceof E0) System.out.println(t.getMessage());
        }
        String v31 = M.sb.toString();
        try {
            System.out.println(M.l0);
        } catch (Throwable t) {
            System.out.println("T");
            if (t instanceof E0) System.out.println(t.getMessage());
        }
        try {
            if ((Integer.parseInt(new StringBuffer().append(((short) M.i0)).append("-").append(((long) M.i0)).append((M.i0 == M.i0)).toString()) >= M.a1.m0(((M.i0 ^ 1) - M.iia.length)))) throw new E2();
        } catch (Throwable t) {
            System.out.println("T");
            if (t instanceof E0) System.out.println(t.getMessage());
        }
        try {
            if (M.s0.equals(M.oa)) {
                System.out.println(v30);
            } else {
            }
        } catch (Throwable t) {
            System.out.println("T");
            if (t instanceof E0) System.out.println(t.getMessage());
        }
        try {
            M.oa[2] = M.oa[3];
        } catch (Throwable t) {
            System.out.println("T");
            if (t instanceof E0) System.out.println(t.getMessage());
        }
        try {
            switch ((h1(127, M.l0, v25, n - 1) ^ ((int) M.l0)) % 5) {
                case 0: System.out.println(M.ja[M.i0]);
                break;
                case 1: ;
                case 2: ;
                break;
                case 5: ;
                default: System.out.println("d");
            }
        } catch (Throwable t) {
            System.out.println("T");
            if (t instanceof E0) System.out.println(t.getMessage());
        }
        try {
            M.sb.append(v30);
        } catch (Throwable t) {
            System.out.println("T");
            if (t instanceof E0) System.out.println(t.getMessage());
        }
        System.out.println(i0);
        System.out.println(sb.toString());
    }
}

interface I0 {
    int f(int x);
}

interface I1 extends I0 {
    int K = 77;
    String NAME = "I1";
    int g(int x, long y);
}

abstract class A implements I0 {
    int fi;
    byte fb;
    short fs;
    char fc;
    long fl;
    boolean fz;
    A next;
    static int si = 9;
    A(int x) {
        fi = x;
        fl = x * 3L;
    }
    A() {
        this(4);
    }
    int m0(int x) {
        System.out.println(M.s0);
        return ("".length() | (x / x));
    }
    abstract int m1(int x);
    public int f(int x) {
        return m0(x) + 1;
    }
    long wide(long y, int x) {
        return y * 31 + x;
    }
    A me() {
        return this;
    }
    String name(int x) {
        return "A";
    }
}

class B extends A {
    static int si2 = 5;
    static {
        System.out.println("init B");
        M.i0 += 3;
    }
    int fi2;
    B(int x) {
        super(x + 1);
        fi2 = x;
        next = this;
    }
    int m1(int x) {
        return m0(x) - fi2;
    }
    String name(int x) {
        return "B".concat(String.valueOf(x));
    }
}

class C extends A {
    static int si3;
    static {
        System.out.println("init C");
        if (M.i0 % 2 == 0) M.boom();
    }
    C(int x) {
        fb = (byte) x;
    }
    int m1(int x) {
        try {
            System.out.println(M.i0);
            System.out.println(M.iia[1][(x--)]);
            System.out.println(M.ba[3]);
        } catch (ArithmeticException v1) {
            System.out.println("ArithmeticException 1");
        } catch (IndexOutOfBoundsException v2) {
            System.out.println("IndexOutOfBoundsException 2");
            System.out.println((x | M.bb[3].m0("12".charAt(0))));
        } catch (NegativeArraySizeException v3) {
            System.out.println("NegativeArraySizeException 3");
        } catch (ArrayStoreException v4) {
            System.out.println("ArrayStoreException 4");
        } catch (NumberFormatException v5) {
            System.out.println("NumberFormatException 5");
        } catch (IllegalArgumentException v6) {
            System.out.println("IllegalArgumentException 6");
        } catch (E0 v7) {
            System.out.println("E0 7");
            System.out.println(v7.getMessage());
            System.out.println(x);
        } catch (LinkageError v8) {
            System.out.println("LinkageError 8");
        }
        return M.sb.length();
    }
    A me() {
        return next;
    }
}

class D extends B implements I1 {
    static int sd = B.si2 + 1;
    static {
        System.out.println("init D");
        M.i0 += 3;
    }
    D(int x) {
        super(x);
    }
    public int g(int x, long y) {
        return x + (int) y;
    }
    String name(int x) {
        return super.name(x).concat("D");
    }
}

final class Q implements I1 {
    private int h;
    static {
        System.out.println("init Q");
        int q = 1 / (M.i0 & 1);
        System.out.println(q);
    }
    Q(int x) {
        h = x;
    }
    public int f(int x) {
        return h ^ x;
    }
    public int g(int x, long y) {
        return h;
    }
}

class S0 {
    static int x = S1.x + 1;
}

class S1 {
    static final String T = "tee";
    static int x = 2;
}

class E0 extends RuntimeException {
    E0() {
        super();
    }
    E0(String s) {
        super(s);
    }
}

class E1 extends E0 {
    int extra = 3;
    E1() {
        this("one");
    }
    E1(String s) {
        super(s);
    }
}

class E2 extends E1 {
    E2() {
    }
    E2(String s) {
        super(s);
    }
    public String getMessage() {
        return "two";
    }
}
