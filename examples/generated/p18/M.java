package p18;

public class M {
    static int i0 = 8;
    static long l0 = 85304L;
    static int[] ia = {1, 2, 3, 4};
    static int[] ja = new int[5];
    static byte[] ba = {1, -1, 127, -128};
    static char[] ca = new char[4];
    static short[] ha = new short[4];
    static long[] la = new long[6];
    static A a0, a1;
    static I0 o0;
    static Object p0;
    static String s0 = "start";
    static A[] aa = new A[4];
    static A[] bb;
    static Object[] oa = new Object[4];
    static int[][] iia = new int[3][4];
    static StringBuffer sb = new StringBuffer();
    static int boom() {
        throw new E1("boom");
    }
    static int h0(int x, long y, Object p, int n) {
        if (n <= 0) return x;
        System.out.println((char) (97 + (Integer.parseInt("") & 15)));
        M.oa[0] = M.p0;
        return M.i0;
    }
    static int h1(int x, long y, Object p, int n) {
        if (n <= 0) return x;
        System.out.println(M.sb.length());
        System.arraycopy(M.ia, 3, M.oa, 3, 2);
        try {
            System.out.println(A.si);
            System.out.println("12".length());
            System.out.println(I1.NAME);
        } catch (ArithmeticException v6) {
            System.out.println("ArithmeticException 6");
            System.out.println(((((255L * y) | M.l0) % M.la[0]) << x));
            if (M.ca[2] > 100) throw v6;
        } catch (ArrayIndexOutOfBoundsException v7) {
            System.out.println("ArrayIndexOutOfBoundsException 7");
        } catch (ClassCastException v8) {
            System.out.println("ClassCastException 8");
            System.out.println((char) (97 + ((M.ia[2] % 7) & 15)));
        } catch (IllegalArgumentException v9) {
            System.out.println("IllegalArgumentException 9");
        } catch (NoClassDefFoundError v10) {
            System.out.println("NoClassDefFoundError 10");
            if (x > 100) throw v10;
        } catch (LinkageError v11) {
            System.out.println("LinkageError 11");
            System.out.println(M.ca[3]);
            if (M.i0 > 100) throw v11;
        }
        System.arraycopy(M.oa, 0, M.oa, 2, 1);
        return M.ia[x];
    }
    static int h2(int x, long y, Object p, int n) {
        if (n <= 0) return x;
        System.out.println((x--));
        System.out.println(String.valueOf("".equals(p)));
        x >>= ((short) (x--));
        return (2 / 1);
    }
    static void set() {
        a0 = new B(3);
        a1 = new D(5);
        o0 = new Q(6);
        p0 = a1;
        aa[0] = a0;
        aa[1] = a1;
        bb = new B[4];
        oa[0] = s0;
        oa[1] = ia;
        oa[2] = a0;
    }
    public static void main(String[] args) {
        int n = 3;
        try {
            set();
        } catch (Throwable t) {
            System.out.println("set");
        }
        try {
            for (int v12 = 0; v12 < 1; v12++) {
                M.sb.append(((String) null).equals(M.p0));
            }
        } catch (Throwable t) {
            System.out.println("T");
            if (t instanceof E0) System.out.println(t.getMessage());
        }
        try {
            System.arraycopy(M.ia, 2, M.ja, 3, M.s0.concat(M.s0).charAt(1));
        } catch (Throwable t) {
            System.out.println("T");
            if (t instanceof E0) System.out.println(t.getMessage());
        }
        try {
            switch (M.ba[2] % 5) {
                case 0: System.out.println(M.i0);
                break;
                case 3: ;
                break;
                case 4: ;
                default: System.out.println("d");
            }
        } catch (Throwable t) {
            System.out.println("T");
            if (t instanceof E0) System.out.println(t.getMessage());
        }
        try {
            M.ha[1] = (short) 127;
        } catch (Throwable t) {
            System.out.println("T");
            if (t instanceof E0) System.out.println(t.getMessage());
        }
        try {
            System.out.println("12");
        } catch (Throwable t) {
            System.out.println("T");
            if (t instanceof E0) System.out.println(t.getMessage());
        }
        try {
            M.ja[3] += (int) (((-128) > (M.i0--)) ? (M.i0 + ((false ? (-1) : M.i0) ^ Integer.parseInt("007"))) : ((M.la[M.i0] == (M.l0 >> 3)) ? (((char) (-1)) - 5) : ((M.i0 - M.i0) + (M.i0++))));
        } catch (Throwable t) {
            System.out.println("T");
            if (t instanceof E0) System.out.println(t.getMessage());
        }
        try {
            for (int v13 = 0; v13 < 1; v13++) {
                A.si = (M.i0 ^ M.sb.length());
                M.ca[3] = (char) (M.ha[2] * (((((Object) M.p0) != (Object) M.p0) ? ((char) M.i0) : M.i0) + ((((Object) M.p0) instanceof String) ? (M.i0 / 10) : M.ia[32767])));
            }
        } catch (Throwable t) {
            System.out.println("T");
            if (t instanceof E0) System.out.println(t.getMessage());
        }
        M.a1.fz = (!(((Object) M.p0) instanceof String));
        try {
            M.sb.append(M.l0);
        } catch (Throwable t) {
            System.out.println("T");
            if (t instanceof E0) System.out.println(t.getMessage());
        }
        try {
            M.aa[3] = ((B) M.a0);
        } catch (Throwable t) {
            System.out.println("T");
            if (t instanceof E0) System.out.println(t.getMessage());
        }
        try {
            System.arraycopy(M.ja, 2, M.ja, 2, 0);
        } catch (Throwable t) {
            System.out.println("T");
            if (t instanceof E0) System.out.println(t.getMessage());
        }
        long v14 = (((long) M.s0.length()) / 1L);
        try {
            M.bb[3] = new D(5);
        } catch (Throwable t) {
            System.out.println("T");
            if (t instanceof E0) System.out.println(t.getMessage());
        }
        try {
            C.si3 = (M.i0 * M.i0);
        } catch (Throwable t) {
            System.out.println("T");
            if (t instanceof E0) System.out.println(t.getMessage());
        }
        int v15 = 3;
        try {
            System.out.println((M.i0 >= M.ca[3]));
        } catch (Throwable t) {
            System.out.println("T");
            if (t instanceof E0) System.out.println(t.getMessage());
        }
        long v16 = v14;
        try {
            M.ja[1] += (int) (((v15 * ((short) v15)) & M.i0) % M.i0);
        } catch (Throwable t) {
            System.out.println("T");
            if (t instanceof E0) System.out.println(t.getMessage());
        }
        A[] v17 = new D[3];
        I0 v18 = M.o0;
        try {
            M.sb.append((((Object) M.p0) instanceof Object[]));
        } catch (Throwable t) {
            System.out.println("T");
            if (t instanceof E0) System.out.println(t.getMessage());
        }
        System.out.println(i0);
        System.out.println(sb.toString());
    }
}

interface I0 {
    int f(int x);
}

interface I1 extends I0 {
    int K = 77;
    String NAME = "I1";
    int g(int x, long y);
}

abstract class A implements I0 {
    int fi;
    byte fb;
    short fs;
    char fc;
    long fl;
    boolean fz;
    A next;
    static int si = 2;
    static {
        System.out.println("init A");
        int q = 1 / (M.i0 & 1);
        System.out.println(q);
    }
    A(int x) {
        fi = x;
        fl = x * 3L;
    }
    A() {
        this(4);
    }
    int m0(int x) {
        System.arraycopy(M.oa, 3, M.oa, 0, 0);
        return (M.bb.length / 3);
    }
    abstract int m1(int x);
    public int f(int x) {
        return m0(x) + 1;
    }
    long wide(long y, int x) {
        return y * 31 + x;
    }
    A me() {
        return this;
    }
    String name(int x) {
        return "A";
    }
}

class B extends A {
    static int si2 = 5;
    int fi2;
    B(int x) {
        super(x + 1);
        fi2 = x;
        next = this;
    }
    int m1(int x) {
        return m0(x) - fi2;
    }
    public int f(int x) {
        return x;
    }
    String name(int x) {
        return "B".concat(String.valueOf(x));
    }
}

class C extends A {
    static int si3;
    static {
        System.out.println("init C");
        S0.x = 9;
    }
    C(int x) {
        super(x);
        fb = (byte) x;
    }
    int m1(int x) {
        try {
            M.ia[3] = (int) ((byte) ((char) 31));
        } catch (E2 v1) {
            System.out.println("E2 1");
            System.out.println(v1.getMessage());
            System.out.println("a longer text");
        } catch (IndexOutOfBoundsException v2) {
            System.out.println("IndexOutOfBoundsException 2");
            if (M.o0.f(x) > 100) throw v2;
        } catch (NullPointerException v3) {
            System.out.println("NullPointerException 3");
            System.out.println(B.si2);
        } catch (IllegalArgumentException v4) {
            System.out.println("IllegalArgumentException 4");
        } catch (RuntimeException v5) {
            System.out.println("RuntimeException 5");
            System.out.println(127);
        }
        return C.si3;
    }
}

class D extends B implements I1 {
    static int sd = B.si2 + 1;
    static {
        System.out.println("init D");
        S0.x = 9;
    }
    D(int x) {
        super(x);
    }
    public int g(int x, long y) {
        return x + (int) y;
    }
    int m1(int x) {
        return super.m1(x) ^ 21;
    }
    String name(int x) {
        return super.name(x).concat("D");
    }
}

final class Q implements I1 {
    private int h;
    static {
        System.out.println("init Q");
        System.out.println(S0.x);
    }
    Q(int x) {
        h = x;
    }
    public int f(int x) {
        return h ^ x;
    }
    public int g(int x, long y) {
        return h;
    }
}

class S0 {
    static int x = 1;
    static {
        System.out.println("init S0");
        S0.x = 9;
    }
}

class S1 {
    static final String T = "tee";
    static int x = S0.x + 2;
    static {
        System.out.println("init S1");
    }
}

class E0 extends RuntimeException {
    E0() {
        super();
    }
    E0(String s) {
        super(s);
    }
}

class E1 extends E0 {
    int extra = 3;
    E1() {
        this("one");
    }
    E1(String s) {
        super(s);
    }
}

class E2 extends E1 {
    E2() {
    }
    E2(String s) {
        super(s);
    }
    public String getMessage() {
        return "two";
    }
}
