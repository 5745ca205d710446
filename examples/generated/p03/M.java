package p03;

public class M {
    static int i0 = 0;
    static long l0 = 29992L;
    static int[] ia = {1, 2, 3, 4};
    static int[] ja = new int[5];
    static byte[] ba = {1, -1, 127, -128};
    static char[] ca = new char[4];
    static short[] ha = new short[4];
    static long[] la = new long[6];
    static A a0, a1;
    static I0 o0;
    static Object p0;
    static String s0 = "start";
    static A[] aa = new A[4];
    static A[] bb;
    static Object[] oa = new Object[4];
    static int[][] iia = new int[3][4];
    static StringBuffer sb = new StringBuffer();
    static int boom() {
        throw new E1("boom");
    }
    static int h0(int x, long y, Object p, int n) {
        if (n <= 0) return x;
        int v8 = (x--);
        System.arraycopy(M.oa, 1, M.oa, 1, 3);
        System.out.println(v8);
        return A.si;
    }
    static int h1(int x, long y, Object p, int n) {
        if (n <= 0) return x;
        System.out.println(M.a0.wide((y % 1L), (M.a1.m0((x * (-45254))) % 10)));
        try {
            switch (((char) M.iia[1][2]) & 7) {
                case -1: ;
                break;
                case 0: System.out.println(h1(Integer.parseInt(M.a0.name(M.i0).concat("x")), ((long) (M.ha[x] - (false ? x : x))), String.valueOf(M.ja.length), n - 1));
                break;
                case 100: ;
                case 65536: ;
                default: System.out.println("d");
            }
        } catch (ArrayIndexOutOfBoundsException v9) {
            System.out.println("ArrayIndexOutOfBoundsException 6");
        } catch (ArrayStoreException v10) {
            System.out.println("ArrayStoreException 7");
        } catch (ExceptionInInitializerError v11) {
            System.out.println("ExceptionInInitializerError 8");
        } catch (LinkageError v12) {
            System.out.println("LinkageError 9");
            M.ca[0] = (char) h2(((M.sb.length() < h0(255, 64L, M.p0, n - 1)) ? 5 : x), ((B) M.a0).fl, M.o0, n - 1);
        }
        return (M.ca[x] / -5);
    }
    static int h2(int x, long y, Object p, int n) {
        if (n <= 0) return x;
        try {
            int v13 = (M.s0.charAt("".charAt(1)) ^ M.o0.f(M.ha[1]));
            try {
                System.arraycopy(M.oa, 2, M.oa, 1, 1);
                System.out.println(h2(((short) M.i0), (y ^ M.l0), M.p0, n - 1));
                M.aa[0] = M.a1;
            } catch (E1 v14) {
                System.out.println("E1 10");
                System.out.println(v14.getMessage());
            } catch (NegativeArraySizeException v15) {
                System.out.println("NegativeArraySizeException 11");
                if ((M.iia.length <= x)) throw new E0();
            } catch (IllegalArgumentException v16) {
                System.out.println("IllegalArgumentException 12");
                Object v17 = M.p0;
                if (h1(M.a1.m1(x), (((long) M.i0) ^ M.a0.fl), M.s0, n - 1) > 100) throw v16;
            } catch (RuntimeException v18) {
                System.out.println("RuntimeException 13");
            } catch (NoClassDefFoundError v19) {
                System.out.println("NoClassDefFoundError 14");
            } catch (Throwable v20) {
                System.out.println("Throwable 15");
            }
        } catch (ArrayIndexOutOfBoundsException v21) {
            System.out.println("ArrayIndexOutOfBoundsException 16");
            if ((((Object) M.s0) instanceof A)) {
                M.sb.append((char) (104));
            } else {
                System.out.println((M.la[2] > y));
            }
        } catch (StringIndexOutOfBoundsException v22) {
            System.out.println("StringIndexOutOfBoundsException 17");
        } catch (IndexOutOfBoundsException v23) {
            System.out.println("IndexOutOfBoundsException 18");
        } catch (ArrayStoreException v24) {
            System.out.println("ArrayStoreException 19");
            System.arraycopy(M.bb, 0, M.bb, 0, 3);
            if (((((Object) M.a1) instanceof B[]) ? (M.i0 >> M.ia[3]) : (M.i0--)) > 100) throw v24;
        } catch (E0 v25) {
            System.out.println("E0 20");
            System.out.println(v25.getMessage());
        } catch (NoClassDefFoundError v26) {
            System.out.println("NoClassDefFoundError 21");
            int v27 = M.a0.m0(M.i0);
        } catch (ExceptionInInitializerError v28) {
            System.out.println("ExceptionInInitializerError 22");
            System.out.println(String.valueOf(M.o0.f(M.i0)));
        }
        for (int v29 = 0; v29 < 1; v29++) {
            int v30 = M.i0;
            System.out.println(((B) M.a1).m0(x));
        }
        String v31 = String.valueOf((((Object) p) instanceof B[]));
        return M.iia[3][1];
    }
    static void set() {
        a0 = new B(3);
        a1 = new D(5);
        o0 = new Q(6);
        p0 = a1;
        aa[0] = a0;
        aa[1] = a1;
        bb = new B[4];
        oa[0] = s0;
        oa[1] = ia;
        oa[2] = a0;
    }
    public static void main(String[] args) {
        int n = 3;
        try {
            set();
        } catch (Throwable t) {
            System.out.println("set");
        }
        M.a0.fz = (M.ha[2] >= (M.o0.f(0) + ((M.i0 > M.i0) ? M.iia[1][0] : (M.i0 * M.i0))));
        I0 v32 = ((I0) (Object) M.p0);
        try {
            System.out.println(M.ia[127]);
        } catch (Throwable t) {
            System.out.println("T");
            if (t instanceof E0) System.out.println(t.getMessage());
        }
        try {
            try {
                System.arraycopy(M.oa, 3, M.oa, 3, 1);
                M.oa[3] = M.oa[0];
            } catch (ArrayStoreException v33) {
                System.out.println("ArrayStoreException 23");
                System.out.println((char) (97 + (M.ha[0] & 15)));
            }
        } catch (Throwable t) {
            System.out.println("T");
            if (t instanceof E0) System.out.println(t.getMessage());
        }
        try {
            M.sb.append(M.l0);
        } catch (Throwable t) {
            System.out.println("T");
            if (t instanceof E0) System.out.println(t.getMessage());
        }
        try {
            S0.x = M.s0.length();
        } catch (Throwable t) {
            System.out.println("T");
            if (t instanceof E0) System.out.println(t.getMessage());
        }
        try {
            M.a0.fb = (byte) M.ca[(M.i0--)];
        } catch (Throwable t) {
            System.out.println("T");
            if (t instanceof E0) System.out.println(t.getMessage());
        }
        int v34 = String.valueOf((false && true)).concat(new StringBuffer().append(M.bb.length).append("-").append((M.l0 >> M.i0)).append((5 <= M.i0)).toString()).charAt((M.o0.f(M.i0) % M.ia[0]));
        try {
            if ((!((h2(v34, M.l0, M.p0, n - 1) ^ M.ja.length) > (v34++)))) throw new E1("m");
        } catch (Throwable t) {
            System.out.println("T");
            if (t instanceof E0) System.out.println(t.getMessage());
        }
        A[] v35 = new D[3];
        int v36 = (M.ba[2] | (M.ca[2] & (M.a1.fc ^ Integer.parseInt("2147483647"))));
        long v37 = 63L;
        M.ba[1] = (byte) v36;
        try {
            System.out.println(M.i0);
        } catch (Throwable t) {
            System.out.println("T");
            if (t instanceof E0) System.out.println(t.getMessage());
        }
        long v38 = M.a0.wide((M.a0.fl << M.i0), v36);
        long v39 = M.a0.fl;
        A.si = (M.i0 * C.si3);
        System.out.println(i0);
        System.out.println(sb.toString());
    }
}

interface I0 {
    int f(int x);
}

interface I1 extends I0 {
    int K = 77;
    String NAME = "I1";
    int g(int x, long y);
}

abstract class A implements I0 {
    int fi;
    byte fb;
    short fs;
    char fc;
    long fl;
    boolean fz;
    A next;
    static int si = 6;
    static {
        System.out.println("init A");
        S0.x = 9;
    }
    A(int x) {
        fi = x;
        fl = x * 3L;
    }
    A() {
        this(4);
    }
    int m0(int x) {
        try {
            System.out.println(M.s0.length());
        } catch (E1 v1) {
            System.out.println("E1 1");
            System.out.println(v1.getMessage());
        } catch (ArrayIndexOutOfBoundsException v2) {
            System.out.println("ArrayIndexOutOfBoundsException 2");
            if (M.a0.m0("12".concat(M.s0).length()) > 100) throw v2;
        } catch (IndexOutOfBoundsException v3) {
            System.out.println("IndexOutOfBoundsException 3");
            long v4 = ((M.l0 / 10L) & M.l0);
        } catch (ClassCastException v5) {
            System.out.println("ClassCastException 4");
        } catch (NoClassDefFoundError v6) {
            System.out.println("NoClassDefFoundError 5");
            Object v7 = M.p0;
        }
        return (M.i0 >>> x);
    }
    abstract int m1(int x);
    public int f(int x) {
        return m0(x) + 1;
    }
    long wide(long y, int x) {
        return y * 31 + x;
    }
    A me() {
        return this;
    }
    String name(int x) {
        return "A";
    }
}

class B extends A {
    static int si2 = 5;
    static {
        System.out.println("init B");
        S0.x = 9;
    }
    int fi2;
    B(int x) {
        super(x + 1);
        fi2 = x;
        next = this;
    }
    int m1(int x) {
        return m0(x) - fi2;
    }
    public int f(int x) {
        return x;
    }
    String name(int x) {
        return "B".concat(String.valueOf(x));
    }
}

class C extends A {
    static int si3;
    C(int x) {
        super(x);
        fb = (byte) x;
    }
    int m1(int x) {
        B.si2 += M.oa.length;
        return M.a1.name((-1)).charAt(x);
    }
    long wide(long y, int x) {
        return super.wide(x, (int) y);
    }
    A me() {
        return next;
    }
}

class D extends B implements I1 {
    static int sd = B.si2 + 1;
    D(int x) {
        super(x);
    }
    public int g(int x, long y) {
        return x + (int) y;
    }
    int m1(int x) {
        return super.m1(x) ^ 21;
    }
    String name(int x) {
        return super.name(x).concat("D");
    }
}

final class Q implements I1 {
    private int h;
    Q(int x) {
        h = x;
    }
    public int f(int x) {
        return h ^ x;
    }
    public int g(int x, long y) {
        return h;
    }
}

class S0 {
    static int x = 1;
    static {
        System.out.println("init S0");
    }
}

class S1 {
    static final String T = "tee";
    static int x = M.i0 / (M.i0 & 3);
    static {
        System.out.println("init S1");
        M.i0 += 3;
    }
}

class E0 extends RuntimeException {
    E0() {
        super();
    }
    E0(String s) {
        super(s);
    }
}

class E1 extends E0 {
    int extra = 3;
    E1() {
        this("one");
    }
    E1(String s) {
        super(s);
    }
}

class E2 extends E1 {
    E2() {
    }
    E2(String s) {
        super(s);
    }
    public String getMessage() {
        return "two";
    }
}
