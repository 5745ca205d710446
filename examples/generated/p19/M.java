package p19;

public class M {
    static int i0 = 4;
    static long l0 = 33633L;
    static int[] ia = {1, 2, 3, 4};
    static int[] ja = new int[5];
    static byte[] ba = {1, -1, 127, -128};
    static char[] ca = new char[4];
    static short[] ha = new short[4];
    static long[] la = new long[6];
    static A a0, a1;
    static I0 o0;
    static Object p0;
    static String s0 = "start";
    static A[] aa = new A[4];
    static A[] bb;
    static Object[] oa = new Object[4];
    static int[][] iia = new int[3][4];
    static StringBuffer sb = new StringBuffer();
    static int boom() {
        throw new E1("boom");
    }
    static int h0(int x, long y, Object p, int n) {
        if (n <= 0) return x;
        System.out.println((char) (97 + ((M.iia[2][3] << x) & 15)));
        System.arraycopy(M.ba, 2, M.ba, M.ha[3], M.iia[M.i0][0]);
        return (M.s0.length() | h0(x, M.l0, p, n - 1));
    }
    static int h1(int x, long y, Object p, int n) {
        if (n <= 0) return x;
        S0.x = ((2147483647 + M.o0.f((x--))) - String.valueOf(M.sb.length()).charAt(3));
        for (int v12 = 0; v12 < 1; v12++) {
            try {
                x -= M.ia[0];
                System.out.println(B.si2);
            } catch (ArrayStoreException v13) {
                System.out.println("ArrayStoreException 10");
            } catch (NumberFormatException v14) {
                System.out.println("NumberFormatException 11");
                System.out.println(((int) (M.la[0] | (y | (M.l0 >>> M.i0)))));
            } catch (E0 v15) {
                System.out.println("E0 12");
                System.out.println(v15.getMessage());
            } catch (ExceptionInInitializerError v16) {
                System.out.println("ExceptionInInitializerError 13");
                System.out.println((char) (97 + ((x - M.i0) & 15)));
                if (M.iia[0][1] > 100) throw v16;
            } catch (LinkageError v17) {
                System.out.println("LinkageError 14");
                System.out.println(M.a0.name(M.aa.length).charAt(1));
            } catch (Throwable v18) {
                System.out.println("Throwable 15");
            }
            int v19 = M.ca[3];
        }
        return ((x & 2) / 1);
    }
    static int h2(int x, long y, Object p, int n) {
        if (n <= 0) return x;
        try {
            System.out.println(String.valueOf(M.a1.fs));
            M.la[3] = ((long) 5);
        } catch (E2 v20) {
            System.out.println("E2 16");
            System.out.println(v20.getMessage());
            Object[] v21 = new Object[5];
        } catch (ArithmeticException v22) {
            System.out.println("ArithmeticException 17");
        } catch (StringIndexOutOfBoundsException v23) {
            System.out.println("StringIndexOutOfBoundsException 18");
        } catch (NegativeArraySizeException v24) {
            System.out.println("NegativeArraySizeException 19");
            System.out.println(((((int) M.la[1]) | M.ba[1]) ^ M.a0.fi));
        } catch (ArrayStoreException v25) {
            System.out.println("ArrayStoreException 20");
            M.sb.append((((Object) M.p0) == (Object) ((I0) (Object) M.p0)));
        } catch (NoClassDefFoundError v26) {
            System.out.println("NoClassDefFoundError 21");
            long v27 = M.a1.fl;
        } catch (LinkageError v28) {
            System.out.println("LinkageError 22");
        } catch (Throwable v29) {
            System.out.println("Throwable 23");
            System.arraycopy(M.oa, 1, M.oa, 0, 3);
        }
        System.out.println((char) (97 + ((-128) & 15)));
        return x;
    }
    static void set() {
        a0 = new B(3);
        a1 = new D(5);
        o0 = new Q(6);
        p0 = a1;
        aa[0] = a0;
        aa[1] = a1;
        bb = new B[4];
        oa[0] = s0;
        oa[1] = ia;
        oa[2] = a0;
    }
    public static void main(String[] args) {
        int n = 3;
        try {
            set();
        } catch (Throwable t) {
            System.out.println("set");
        }
        if ((M.ca[M.iia[1][0]] >= 128)) throw new SecurityException("m");
        A.si = I1.K;
        try {
            System.out.println((!((-128) != h0((M.i0 & 127), M.a1.fl, M.s0, n - 1))));
        } catch (Throwable t) {
            System.out.println("T");
            if (t instanceof E0) System.out.println(t.getMessage());
        }
        try {
            System.arraycopy(M.ba, 2, M.ba, 3, 1);
        } catch (Throwable t) {
            System.out.println("T");
            if (t instanceof E0) System.out.println(t.getMessage());
        }
        try {
            if ((!((((Object) M.oa[0]) instanceof D) || (D.sd < 2)))) throw new IllegalStateException("m");
        } catch (Throwable t) {
            System.out.println("T");
            if (t instanceof E0) System.out.println(t.getMessage());
        }
        try {
            System.out.println((((255L & M.l0) % ((long) (M.i0 << M.i0))) / 1L));
        } catch (Throwable t) {
            System.out.println("T");
            if (t instanceof E0) System.out.println(t.getMessage());
        }
        try {
            try {
                long v30 = M.l0;
            } catch (StringIndexOutOfBoundsException v31) {
                System.out.println("StringIndexOutOfBoundsException 24");
                long[] v32 = new long[M.i0];
            } catch (IndexOutOfBoundsException v33) {
                System.out.println("IndexOutOfBoundsException 25");
            } catch (NullPointerException v34) {
                System.out.println("NullPointerException 26");
                M.sb.append((char) (108));
                if (M.oa.length > 100) throw v34;
            } catch (ArrayStoreException v35) {
                System.out.println("ArrayStoreException 27");
                System.out.println((((Object) M.p0) instanceof D));
            } catch (IllegalArgumentException v36) {
                System.out.println("IllegalArgumentException 28");
            } catch (E0 v37) {
                System.out.println("E0 29");
                System.out.println(v37.getMessage());
            }
        } catch (Throwable t) {
            System.out.println("T");
            if (t instanceof E0) System.out.println(t.getMessage());
        }
        try {
            M.ha[2] = (short) (M.iia[3][0] & (M.i0 & ((int) (M.l0 * M.l0))));
        } catch (Throwable t) {
            System.out.println("T");
            if (t instanceof E0) System.out.println(t.getMessage());
        }
        try {
            M.bb[7] = M.a0;
        } catch (Throwable t) {
            System.out.println("T");
            if (t instanceof E0) System.out.println(t.getMessage());
        }
        try {
            M.oa[3] = ((Object) null);
        } catch (Throwable t) {
            System.out.println("T");
            if (t instanceof E0) System.out.println(t.getMessage());
        }
        try {
            System.out.println(M.a0.fs);
        } catch (Throwable t) {
            System.out.println("T");
            if (t instanceof E0) System.out.println(t.getMessage());
        }
        try {
            if ((M.ca[3] == 65536)) throw new SecurityException("m");
        } catch (Throwable t) {
            System.out.println("T");
            if (t instanceof E0) System.out.println(t.getMessage());
        }
        System.out.println(i0);
        System.out.println(sb.toString());
    }
}

interface I0 {
    int f(int x);
}

interface I1 extends I0 {
    int K = 77;
    String NAME = "I1";
    int g(int x, long y);
}

abstract class A implements I0 {
    int fi;
    byte fb;
    short fs;
    char fc;
    long fl;
    boolean fz;
    A next;
    static int si = 3;
    static {
        System.out.println("init A");
        S0.x = 9;
    }
    A(int x) {
        fi = x;
        fl = x * 3L;
    }
    A() {
        this(4);
    }
    int m0(int x) {
        try {
            C.si3 = S1.T.concat(((String) (Object) M.p0)).charAt(2);
        } catch (E2 v1) {
            System.out.println("E2 1");
            System.out.println(v1.getMessage());
            int v2 = M.s0.charAt(3);
        } catch (ArithmeticException v3) {
            System.out.println("ArithmeticException 2");
            if (M.o0.f(M.ca[0]) > 100) throw v3;
        } catch (ArrayIndexOutOfBoundsException v4) {
            System.out.println("ArrayIndexOutOfBoundsException 3");
        } catch (StringIndexOutOfBoundsException v5) {
            System.out.println("StringIndexOutOfBoundsException 4");
        } catch (NegativeArraySizeException v6) {
            System.out.println("NegativeArraySizeException 5");
            if ((!(!(2147483647 >= M.i0)))) throw new ArithmeticException("m");
            if (M.iia[0][0] > 100) throw v6;
        } catch (IllegalArgumentException v7) {
            System.out.println("IllegalArgumentException 6");
            int v8 = S0.x;
        } catch (RuntimeException v9) {
            System.out.println("RuntimeException 7");
            if (M.ba[0] > 100) throw v9;
        } catch (ExceptionInInitializerError v10) {
            System.out.println("ExceptionInInitializerError 8");
            if (M.i0 > 100) throw v10;
        } catch (LinkageError v11) {
            System.out.println("LinkageError 9");
        }
        return M.iia[M.i0][0];
    }
    abstract int m1(int x);
    public int f(int x) {
        return m0(x) + 1;
    }
    long wide(long y, int x) {
        return y * 31 + x;
    }
    A me() {
        return this;
    }
    String name(int x) {
        return "A";
    }
}

class B extends A {
    static int si2 = 5;
    static {
        System.out.println("init B");
        if (M.i0 % 2 == 0) M.boom();
    }
    int fi2;
    B(int x) {
        super(x + 1);
        fi2 = x;
        next = this;
    }
    int m1(int x) {
        return m0(x) - fi2;
    }
    String name(int x) {
        return "B".concat(String.valueOf(x));
    }
}

class C extends A {
    static int si3;
    static {
        System.out.println("init C");
        int q = 1 / (M.i0 & 1);
        System.out.println(q);
    }
    C(int x) {
        fb = (byte) x;
    }
    int m1(int x) {
        M.oa[3] = M.p0;
        return ((int) 1234567890123L);
    }
    long wide(long y, int x) {
        return super.wide(x, (int) y);
    }
    A me() {
        return next;
    }
}

class D extends B implements I1 {
    static int sd = M.i0 * 2;
    static {
        System.out.println("init D");
        if (M.i0 % 2 == 0) M.boom();
    }
    D(int x) {
        super(x);
    }
    public int g(int x, long y) {
        return x + (int) y;
    }
    int m1(int x) {
        return super.m1(x) ^ 21;
    }
    String name(int x) {
        return super.name(x).concat("D");
    }
}

final class Q implements I1 {
    private int h;
    Q(int x) {
        h = x;
    }
    public int f(int x) {
        return h ^ x;
    }
    public int g(int x, long y) {
        return h;
    }
}

class S0 {
    static int x = M.i0;
}

class S1 {
    static final String T = "tee";
    static int x = M.i0 / (M.i0 & 3);
}

class E0 extends RuntimeException {
    E0() {
        super();
    }
    E0(String s) {
        super(s);
    }
}

class E1 extends E0 {
    int extra = 3;
    E1() {
        this("one");
    }
    E1(String s) {
        super(s);
    }
}

class E2 extends E1 {
    E2() {
    }
    E2(String s) {
        super(s);
    }
    public String getMessage() {
        return "two";
    }
}
