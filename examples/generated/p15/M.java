package p15;

public class M {
    static int i0 = 6;
    static long l0 = 90149L;
    static int[] ia = {1, 2, 3, 4};
    static int[] ja = new int[5];
    static byte[] ba = {1, -1, 127, -128};
    static char[] ca = new char[4];
    static short[] ha = new short[4];
    static long[] la = new long[6];
    static A a0, a1;
    static I0 o0;
    static Object p0;
    static String s0 = "start";
    static A[] aa = new A[4];
    static A[] bb;
    static Object[] oa = new Object[4];
    static int[][] iia = new int[3][4];
    static StringBuffer sb = new StringBuffer();
    static int boom() {
        throw new E1("boom");
    }
    static int h0(int x, long y, Object p, int n) {
        if (n <= 0) return x;
        System.out.println((2 < x));
        System.out.println(M.ca[M.ca[0]]);
        return (M.iia[3][0] / 10);
    }
    static int h1(int x, long y, Object p, int n) {
        if (n <= 0) return x;
        System.out.println((char) (97 + (((x++) + (M.i0++)) & 15)));
        for (int v2 = 0; v2 < 1; v2++) {
            M.ca[3] = (char) ((int) (M.l0 & (255L >> (2147483647 + 7))));
            System.out.println((2 << (x++)));
        }
        System.out.println(M.a1.fl);
        M.sb.append(M.iia[M.i0][3]);
        return (I1.K ^ (x | x));
    }
    static int h2(int x, long y, Object p, int n) {
        if (n <= 0) return x;
        M.sb.append(M.sb.toString());
        B.si2 += M.iia.length;
        return (-49447);
    }
    static void set() {
        a0 = new B(3);
        a1 = new D(5);
        o0 = new Q(6);
        p0 = a1;
        aa[0] = a0;
        aa[1] = a1;
        bb = new B[4];
        oa[0] = s0;
        oa[1] = ia;
        oa[2] = a0;
    }
    public static void main(String[] args) {
        int n = 3;
        try {
            set();
        } catch (Throwable t) {
            System.out.println("set");
        }
        try {
            for (int v3 = 0; v3 < 2; v3++) {
                M.sb.append(M.s0);
            }
        } catch (Throwable t) {
            System.out.println("T");
            if (t instanceof E0) System.out.println(t.getMessage());
        }
        try {
            ((B) M.a0).fi = M.sb.length();
        } catch (Throwable t) {
            System.out.println("T");
            if (t instanceof E0) System.out.println(t.getMessage());
        }
        try {
            S0.x = ((String) null).length();
        } catch (Throwable t) {
            System.out.println("T");
            if (t instanceof E0) System.out.println(t.getMessage());
        }
        try {
            for (int v4 = 0; v4 < 2; v4++) {
                for (int v5 = 0; v5 < 4; v5++) {
                    if ((!((M.i0++) > Integer.parseInt("")))) throw new SecurityException("m");
                }
                System.out.println(B.si2);
            }
        } catch (Throwable t) {
            System.out.println("T");
            if (t instanceof E0) System.out.println(t.getMessage());
        }
        M.aa[0] = M.a1;
        try {
            M.bb[1] = M.a0;
        } catch (Throwable t) {
            System.out.println("T");
            if (t instanceof E0) System.out.println(t.getMessage());
        }
        try {
            B.si2 += B.si2;
        } catch (Throwable t) {
            System.out.println("T");
            if (t instanceof E0) System.out.println(t.getMessage());
        }
        try {
            M.ia[M.ba[3]] = (int) (M.i0 >>> M.s0.charAt(0));
        } catch (Throwable t) {
            System.out.println("T");
            if (t instanceof E0) System.out.println(t.getMessage());
        }
        long v6 = M.l0;
        try {
            A.si = ((byte) M.ha[0]);
        } catch (Throwable t) {
            System.out.println("T");
            if (t instanceof E0) System.out.println(t.getMessage());
        }
        try {
            M.a1.fb = (byte) (new D(((M.i0 > 0) ? 1 : 32767)).m1(((int) ((long) 2))) % 1);
        } catch (Throwable t) {
            System.out.println("T");
            if (t instanceof E0) System.out.println(t.getMessage());
        }
        System.out.println((!"".equals(((Object) null))));
        Object[] v7 = new I0[3];
        M.sb.append(((long) (M.s0.charAt(128) | (-128))));
        try {
            if ((((((-128) <= M.i0) ^ (v6 > M.l0)) ? 33 : A.si) > ((byte) (M.sb.length() | S1.x)))) throw new E1();
        } catch (Throwable t) {
            System.out.println("T");
            if (t instanceof E0) System.out.println(t.getMessage());
        }
        try {
            B.si2 += M.i0;
        } catch (Throwable t) {
            System.out.println("T");
            if (t instanceof E0) System.out.println(t.getMessage());
        }
        int v8 = (M.i0++);
        try {
            M.a1.next.fb = (byte) ((int) (M.la[0] / 10L));
        } catch (Throwable t) {
            System.out.println("T");
            if (t instanceof E0) System.out.println(t.getMessage());
        }
        int v9 = (Integer.parseInt(M.s0) & (-8));
        System.out.println((63L >>> M.sb.length()));
        try {
            try {
                int v10 = M.a0.m0(M.ha[M.i0]);
                M.sb.append(M.s0.concat(((A) (Object) M.p0).name(M.i0)));
            } catch (ClassCastException v11) {
                System.out.println("ClassCastException 1");
            } catch (NegativeArraySizeException v12) {
                System.out.println("NegativeArraySizeException 2");
                if ((M.ja[0] & M.i0) > 100) throw v12;
            } catch (RuntimeException v13) {
                System.out.println("RuntimeException 3");
                int v14 = M.iia.length;
            }
        } catch (Throwable t) {
            System.out.println("T");
            if (t instanceof E0) System.out.println(t.getMessage());
        }
        try {
            try {
                M.sb.append((M.a0.m0(((short) M.ia[0])) > ((int) ((M.l0 - v6) | v6))));
                System.out.println(M.ca[0]);
            } catch (IndexOutOfBoundsException v15) {
                System.out.println("IndexOutOfBoundsException 4");
            } catch (NullPointerException v16) {
                System.out.println("NullPointerException 5");
                M.sb.append(M.l0);
            } catch (ArrayStoreException v17) {
                System.out.println("ArrayStoreException 6");
            } catch (IllegalArgumentException v18) {
                System.out.println("IllegalArgumentException 7");
                M.i0 *= (M.ba[0] ^ M.iia.length);
            } catch (NoClassDefFoundError v19) {
                System.out.println("NoClassDefFoundError 8");
            }
        } catch (Throwable t) {
            System.out.println("T");
            if (t instanceof E0) System.out.println(t.getMessage());
        }
        System.out.println(i0);
        System.out.println(sb.toString());
    }
}

interface I0 {
    int f(int x);
}

interface I1 extends I0 {
    int K = 77;
    String NAME = "I1";
    int g(int x, long y);
}

abstract class A implements I0 {
    int fi;
    byte fb;
    short fs;
    char fc;
    long fl;
    boolean fz;
    A next;
    static int si = 4;
    A(int x) {
        fi = x;
        fl = x * 3L;
    }
    A() {
        this(4);
    }
    int m0(int x) {
        long v1 = ((M.l0 | (((long) 65536) % 10L)) & M.l0);
        return M.o0.f(M.ja.length);
    }
    abstract int m1(int x);
    public int f(int x) {
        return m0(x) + 1;
    }
    long wide(long y, int x) {
        return y * 31 + x;
    }
    A me() {
        return this;
    }
    String name(int x) {
        return "A";
    }
}

class B extends A {
    static int si2 = 5;
    int fi2;
    B(int x) {
        super(x + 1);
        fi2 = x;
        next = this;
    }
    int m1(int x) {
        return m0(x) - fi2;
    }
    int m0(int x) {
        return super.m0(x) * 2;
    }
    String name(int x) {
        return "B".concat(String.valueOf(x));
    }
}

class C extends A {
    static int si3;
    static {
        System.out.println("init C");
        int q = 1 / (M.i0 & 1);
        System.out.println(q);
    }
    C(int x) {
        super(x);
        fb = (byte) x;
    }
    int m1(int x) {
        M.ja[3] += (int) M.ca[1];
        return (M.i0 / 7);
    }
}

class D extends B implements I1 {
    static int sd = B.si2 + 1;
    static {
        System.out.println("init D");
        int q = 1 / (M.i0 & 1);
        System.out.println(q);
    }
    D(int x) {
        super(x);
    }
    public int g(int x, long y) {
        return x + (int) y;
    }
    int m1(int x) {
        return super.m1(x) ^ 21;
    }
    String name(int x) {
        return super.name(x).concat("D");
    }
}

final class Q implements I1 {
    private int h;
    Q(int x) {
        h = x;
    }
    public int f(int x) {
        return h ^ x;
    }
    public int g(int x, long y) {
        return h;
    }
}

class S0 {
    static int x = 1;
    static {
        System.out.println("init S0");
        if (M.i0 % 2 == 0) M.boom();
    }
}

class S1 {
    static final String T = "tee";
    static int x = S0.x + 2;
}

class E0 extends RuntimeException {
    E0() {
        super();
    }
    E0(String s) {
        super(s);
    }
}

class E1 extends E0 {
    int extra = 3;
    E1() {
        this("one");
    }
    E1(String s) {
        super(s);
    }
}

class E2 extends E1 {
    E2() {
    }
    E2(String s) {
        super(s);
    }
    public String getMessage() {
        return "two";
    }
}
