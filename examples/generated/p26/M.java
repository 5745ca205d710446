package p26;

public class M {
    static int i0 = -2;
    static long l0 = 34615L;
    static int[] ia = {1, 2, 3, 4};
    static int[] ja = new int[5];
    static byte[] ba = {1, -1, 127, -128};
    static char[] ca = new char[4];
    static short[] ha = new short[4];
    static long[] la = new long[6];
    static A a0, a1;
    static I0 o0;
    static Object p0;
    static String s0 = "start";
    static A[] aa = new A[4];
    static A[] bb;
    static Object[] oa = new Object[4];
    static int[][] iia = new int[3][4];
    static StringBuffer sb = new StringBuffer();
    static int boom() {
        throw new E1("boom");
    }
    static int h0(int x, long y, Object p, int n) {
        if (n <= 0) return x;
        int v1 = x;
        M.aa[A.si] = M.a0;
        M.a1.fz = (!(!(M.la.length == M.a1.m0(v1))));
        System.out.println((String.valueOf(10L).charAt(2) > v1));
        return v1;
    }
    static int h1(int x, long y, Object p, int n) {
        if (n <= 0) return x;
        M.sb.append("a longer text");
        switch ((((((M.i0 > 0) ? M.i0 : x) - (M.i0 | (-128))) & x) + h2(S1.x, M.aa[3].fl, M.p0, n - 1)) & 7) {
            case 1: System.out.println((M.la[2] >>> h2((x++), ((B) M.a1).wide(M.a0.wide(y, x), h2(x, M.l0, M.p0, n - 1)), M.a1, n - 1)));
            break;
            case 3: System.out.println(M.ba[3]);
            case 100: ;
            default: System.out.println("d");
        }
        return ((short) (3 / 3));
    }
    static int h2(int x, long y, Object p, int n) {
        if (n <= 0) return x;
        int v2 = 5;
        try {
            try {
                System.out.println(((char) 127));
                System.out.println(((long) (M.i0 & M.ba[0])));
            } catch (E1 v3) {
                System.out.println("E1 1");
                System.out.println(v3.getMessage());
                if ((M.i0 - M.ja[(x << v2)]) > 100) throw v3;
            } catch (ArithmeticException v4) {
                System.out.println("ArithmeticException 2");
            } catch (IndexOutOfBoundsException v5) {
                System.out.println("IndexOutOfBoundsException 3");
                System.arraycopy(M.ba, 3, M.ba, 2, 0);
            } catch (ArrayStoreException v6) {
                System.out.println("ArrayStoreException 4");
                B.si2 += "12".charAt(M.s0.length());
            } catch (IllegalArgumentException v7) {
                System.out.println("IllegalArgumentException 5");
                M.oa[3] = M.p0;
                if (M.ca[3] > 100) throw v7;
            } catch (NoClassDefFoundError v8) {
                System.out.println("NoClassDefFoundError 6");
                System.out.println(M.s0);
            }
        } catch (IndexOutOfBoundsException v9) {
            System.out.println("IndexOutOfBoundsException 7");
            System.arraycopy(M.ja, M.a1.m1(M.i0), M.ja, 1, M.i0);
        } catch (NumberFormatException v10) {
            System.out.println("NumberFormatException 8");
        } catch (E0 v11) {
            System.out.println("E0 9");
            System.out.println(v11.getMessage());
            A v12 = ((A) (Object) p);
        } catch (RuntimeException v13) {
            System.out.println("RuntimeException 10");
        }
        System.out.println("x".length());
        return x;
    }
    static void set() {
        a0 = new B(3);
        a1 = new D(5);
        o0 = new Q(6);
        p0 = a1;
        aa[0] = a0;
        aa[1] = a1;
        bb = new B[4];
        oa[0] = s0;
        oa[1] = ia;
        oa[2] = a0;
    }
    public static void main(String[] args) {
        int n = 3;
        try {
            set();
        } catch (Throwable t) {
            System.out.println("set");
        }
        try {
            for (int v14 = 0; v14 < 3; v14++) {
                M.i0 *= (M.ia.length * M.i0);
            }
        } catch (Throwable t) {
            System.out.println("T");
            if (t instanceof E0) System.out.println(t.getMessage());
        }
        M.i0 = M.i0;
        try {
            M.ba[0] = (byte) (I1.NAME.equals(M.p0) ? M.ia.length : ((M.iia[3][3] << "".length()) ^ h1(((M.i0 > 0) ? 127 : M.i0), M.la[0], M.ia, n - 1)));
        } catch (Throwable t) {
            System.out.println("T");
            if (t instanceof E0) System.out.println(t.getMessage());
        }
        try {
            M.i0 = ((int) M.l0);
        } catch (Throwable t) {
            System.out.println("T");
            if (t instanceof E0) System.out.println(t.getMessage());
        }
        try {
            M.ia[3] = (int) "x".charAt(0);
        } catch (Throwable t) {
            System.out.println("T");
            if (t instanceof E0) System.out.println(t.getMessage());
        }
        try {
            switch (M.a1.fb ) {
                case -1: ;
                break;
                default: System.out.println("d");
            }
        } catch (Throwable t) {
            System.out.println("T");
            if (t instanceof E0) System.out.println(t.getMessage());
        }
        try {
            for (int v15 = 0; v15 < 1; v15++) {
                for (int v16 = 0; v16 < 4; v16++) {
                    M.bb[3].fi = M.i0;
                    M.aa[5] = ((A) (Object) M.oa);
                }
            }
        } catch (Throwable t) {
            System.out.println("T");
            if (t instanceof E0) System.out.println(t.getMessage());
        }
        try {
            System.out.println(((M.i0 > M.i0) ^ (!"".equals(M.a1))));
        } catch (Throwable t) {
            System.out.println("T");
            if (t instanceof E0) System.out.println(t.getMessage());
        }
        try {
            M.ca[1] = (char) M.i0;
        } catch (Throwable t) {
            System.out.println("T");
            if (t instanceof E0) System.out.println(t.getMessage());
        }
        try {
            M.i0 ^= M.i0;
        } catch (Throwable t) {
            System.out.println("T");
            if (t instanceof E0) System.out.println(t.getMessage());
        }
        try {
            switch (((M.i0 < 65536) ? M.o0.f(M.i0) : M.i0) % 5) {
                case 4: System.out.println(((int) M.l0));
                default: System.out.println("d");
            }
        } catch (Throwable t) {
            System.out.println("T");
            if (t instanceof E0) System.out.println(t.getMessage());
        }
        try {
            M.oa[M.i0] = M.p0;
        } catch (Throwable t) {
            System.out.println("T");
            if (t instanceof E0) System.out.println(t.getMessage());
        }
        A v17 = M.aa[1];
        try {
            for (int v18 = 0; v18 < 2; v18++) {
                long v19 = M.l0;
                System.out.println(((v17.fl < M.l0) ? M.i0 : (M.ja.length & M.iia[0][3])));
            }
        } catch (Throwable t) {
            System.out.println("T");
            if (t instanceof E0) System.out.println(t.getMessage());
        }
        try {
            M.oa[0] = M.p0;
        } catch (Throwable t) {
            System.out.println("T");
            if (t instanceof E0) System.out.println(t.getMessage());
        }
        try {
            ((A) (Object) String.valueOf(M.l0)).fs = (short) M.ha[3];
        } catch (Throwable t) {
            System.out.println("T");
            if (t instanceof E0) System.out.println(t.getMessage());
        }
        System.out.println(i0);
        System.out.println(sb.toString());
    }
}

interface I0 {
    int f(int x);
}

interface I1 extends I0 {
    int K = 77;
    String NAME = "I1";
    int g(int x, long y);
}

abstract class A implements I0 {
    int fi;
    byte fb;
    short fs;
    char fc;
    long fl;
    boolean fz;
    A next;
    static int si = 4;
    A(int x) {
        fi = x;
        fl = x * 3L;
    }
    A() {
        this(4);
    }
    int m0(int x) {
        System.out.println("a longer text");
        return ((((Object) M.p0) instanceof int[]) ? M.ha[3] : x);
    }
    abstract int m1(int x);
    public int f(int x) {
        return m0(x) + 1;
    }
    long wide(long y, int x) {
        return y * 31 + x;
    }
    A me() {
        return this;
    }
    String name(int x) {
        return "A";
    }
}

class B extends A {
    static int si2 = 5;
    static {
        System.out.println("init B");
        M.i0 += 3;
    }
    int fi2;
    B(int x) {
        super(x + 1);
        fi2 = x;
        next = this;
    }
    int m1(int x) {
        return m0(x) - fi2;
    }
    public int f(int x) {
        return x;
    }
    String name(int x) {
        return "B".concat(String.valueOf(x));
    }
}

class C extends A {
    static int si3;
    C(int x) {
        super(x);
        fb = (byte) x;
    }
    int m1(int x) {
        M.sb.append(((!(((Object) M.p0) instanceof I1)) && (M.bb.length <= (x - M.o0.f(M.i0)))));
        return new D(x).fc;
    }
    A me() {
        return next;
    }
}

class D extends B implements I1 {
    static int sd = 7;
    D(int x) {
        super(x);
    }
    public int g(int x, long y) {
        return x + (int) y;
    }
    String name(int x) {
        return super.name(x).concat("D");
    }
}

final class Q implements I1 {
    private int h;
    Q(int x) {
        h = x;
    }
    public int f(int x) {
        return h ^ x;
    }
    public int g(int x, long y) {
        return h;
    }
}

class S0 {
    static int x = M.i0;
}

class S1 {
    static final String T = "tee";
    static int x = S0.x + 2;
    static {
        System.out.println("init S1");
        if (M.i0 % 2 == 0) M.boom();
    }
}

class E0 extends RuntimeException {
    E0() {
        super();
    }
    E0(String s) {
        super(s);
    }
}

class E1 extends E0 {
    int extra = 3;
    E1() {
        this("one");
    }
    E1(String s) {
        super(s);
    }
}

class E2 extends E1 {
    E2() {
    }
    E2(String s) {
        super(s);
    }
    public String getMessage() {
        return "two";
    }
}
