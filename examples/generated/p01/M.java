package p01;

public class M {
    static int i0 = -1;
    static long l0 = 64167L;
    static int[] ia = {1, 2, 3, 4};
    static int[] ja = new int[5];
    static byte[] ba = {1, -1, 127, -128};
    static char[] ca = new char[4];
    static short[] ha = new short[4];
    static long[] la = new long[6];
    static A a0, a1;
    static I0 o0;
    static Object p0;
    static String s0 = "start";
    static A[] aa = new A[4];
    static A[] bb;
    static Object[] oa = new Object[4];
    static int[][] iia = new int[3][4];
    static StringBuffer sb = new StringBuffer();
    static int boom() {
        throw new E1("boom");
    }
    static int h0(int x, long y, Object p, int n) {
        if (n <= 0) return x;
        I0 v7 = M.o0;
        long v8 = (y >> (M.ba[1] & (x++)));
        System.out.println((char) (97 + (Integer.parseInt(M.s0) & 15)));
        return (x++);
    }
    static int h1(int x, long y, Object p, int n) {
        if (n <= 0) return x;
        switch (x % 5) {
            case 65536: System.out.println((!(((x << M.i0) <= (33 | x)) && (((Object) M.p0) != (Object) M.p0))));
            default: System.out.println("d");
        }
        I0 v9 = ((I1) (Object) p);
        long v10 = M.l0;
        int v11 = M.a1.fc;
        return (v11 & M.o0.f(v11));
    }
    static int h2(int x, long y, Object p, int n) {
        if (n <= 0) return x;
        try {
            System.out.println((((B) ((A) (Object) M.p0)).m0(M.iia[1][3]) + M.i0));
            M.ha[0] = (short) ((M.i0--) + "ab".charAt(0));
        } catch (E2 v12) {
            System.out.println("E2 5");
            System.out.println(v12.getMessage());
            M.oa[1] = p;
            if (I1.NAME.length() > 100) throw v12;
        } catch (StringIndexOutOfBoundsException v13) {
            System.out.println("StringIndexOutOfBoundsException 6");
        } catch (NullPointerException v14) {
            System.out.println("NullPointerException 7");
            System.out.println((char) (97 + (Integer.parseInt("99999999999") & 15)));
        } catch (ArrayStoreException v15) {
            System.out.println("ArrayStoreException 8");
            switch (M.i0 % 5) {
                case 4: ;
                break;
                default: System.out.println("d");
            }
        } catch (E0 v16) {
            System.out.println("E0 9");
            System.out.println(v16.getMessage());
            M.aa[x] = M.a0;
        }
        M.oa[2] = p;
        System.out.println(((int) (y << ((short) (false ? (-46034) : M.i0)))));
        if (((M.s0.concat(M.s0).equals(M.p0) ^ ((x - x) <= x)) || (((x + x) % M.ca[3]) <= M.iia[1][2]))) {
            switch (M.aa.length ) {
                case -1: int v17 = M.s0.charAt(1);
                case 0: C.si3 = M.ca[1];
                break;
                case 3: M.oa[3] = "a longer text";
                break;
                case 4: ;
                break;
                default: System.out.println("d");
            }
            System.out.println(M.s0);
        } else {
        }
        return M.i0;
    }
    static void set() {
        a0 = new B(3);
        a1 = new D(5);
        o0 = new Q(6);
        p0 = a1;
        aa[0] = a0;
        aa[1] = a1;
        bb = new B[4];
        oa[0] = s0;
        oa[1] = ia;
        oa[2] = a0;
    }
    public static void main(String[] args) {
        int n = 3;
        try {
            set();
        } catch (Throwable t) {
            System.out.println("set");
        }
        try {
            M.bb[1] = M.bb[2];
        } catch (Throwable t) {
            System.out.println("T");
            if (t instanceof E0) System.out.println(t.getMessage());
        }
        try {
            M.aa[M.o0.f(M.i0)] = ((A) (Object) M.p0);
        } catch (Throwable t) {
            System.out.println("T");
            if (t instanceof E0) System.out.println(t.getMessage());
        }
        try {
            if ((((M.l0 * M.a0.fl) < (M.a0.wide(M.l0, M.i0) ^ M.la[3])) ^ (((B) M.a1).wide(M.a1.wide(M.l0, 32767), (127 * M.i0)) < M.a0.wide((M.l0 * 63L), M.ba[1])))) {
                M.aa[2] = M.a1;
                M.i0 = M.iia[1][2];
            } else {
                M.sb.append((char) (100));
                try {
                    int v18 = M.ja[3];
                    M.oa[0] = M.p0;
                } catch (NullPointerException v19) {
                    System.out.println("NullPointerException 10");
                } catch (ClassCastException v20) {
                    System.out.println("ClassCastException 11");
                    int v21 = 31;
                } catch (NegativeArraySizeException v22) {
                    System.out.println("NegativeArraySizeException 12");
                    Object v23 = M.p0;
                    if (M.i0 > 100) throw v22;
                } catch (NumberFormatException v24) {
                    System.out.println("NumberFormatException 13");
                    if ((31 >>> (M.i0++)) > 100) throw v24;
                }
            }
        } catch (Throwable t) {
            System.out.println("T");
            if (t instanceof E0) System.out.println(t.getMessage());
        }
        try {
            System.arraycopy(M.oa, 2, M.oa, 1, (-3));
        } catch (Throwable t) {
            System.out.println("T");
            if (t instanceof E0) System.out.println(t.getMessage());
        }
        try {
            if ((((Object) M.p0) instanceof int[])) {
                M.i0 = ((M.sb.length() > M.i0) ? M.ha[1] : M.i0);
            } else {
            }
            if ((M.i0 >= h0(M.ba[0], M.la[1], M.p0, n - 1))) {
                M.ba[3] = (byte) (M.o0.f(Integer.parseInt(S1.T)) & ((((Object) M.a0) instanceof int[]) ? (M.s0.charAt(M.i0) + Integer.parseInt("2147483647")) : M.i0));
            } else {
                M.la[0] = M.l0;
            }
        } catch (E2 v25) {
            System.out.println("E2 14");
            System.out.println(v25.getMessage());
            M.a0.fb = (byte) 3;
        } catch (E1 v26) {
            System.out.println("E1 15");
            System.out.println(v26.getMessage());
        } catch (ArithmeticException v27) {
            System.out.println("ArithmeticException 16");
        } catch (IndexOutOfBoundsException v28) {
            System.out.println("IndexOutOfBoundsException 17");
            M.i0 ^= M.s0.charAt(1);
        } catch (ArrayStoreException v29) {
            System.out.println("ArrayStoreException 18");
        } catch (E0 v30) {
            System.out.println("E0 19");
            System.out.println(v30.getMessage());
            System.out.println(((!((M.i0 <= M.i0) || ((-1) != M.i0))) && new StringBuffer().append(((byte) 7)).append("-").append(M.a0.fl).append(M.s0.equals(M.p0)).toString().equals(M.p0)));
        }
        long v31 = 1234567890123L;
        try {
            M.aa[1] = M.a0.me();
        } catch (Throwable t) {
            System.out.println("T");
            if (t instanceof E0) System.out.println(t.getMessage());
        }
        try {
            System.out.println(M.s0);
        } catch (Throwable t) {
            System.out.println("T");
            if (t instanceof E0) System.out.println(t.getMessage());
        }
        int[] v32 = new int[0];
        I0 v33 = M.o0;
        try {
            switch (M.sb.length() & 7) {
                case -1: D.sd ^= M.i0;
                case 1: ;
                case 2: int[] v34 = new int[2];
                break;
                case 5: long[] v35 = new long[3];
                break;
                default: System.out.println("d");
            }
        } catch (Throwable t) {
            System.out.println("T");
            if (t instanceof E0) System.out.println(t.getMessage());
        }
        String v36 = M.s0;
        try {
            System.out.println(v36);
        } catch (Throwable t) {
            System.out.println("T");
            if (t instanceof E0) System.out.println(t.getMessage());
        }
        try {
            System.out.println(((M.i0 * ((int) (v31 - v31))) - ((32767 == M.i0) ? (M.i0--) : (M.ia.length - M.a1.fi))));
        } catch (Throwable t) {
            System.out.println("T");
            if (t instanceof E0) System.out.println(t.getMessage());
        }
        try {
            System.out.println(M.ba[1]);
        } catch (Throwable t) {
            System.out.println("T");
            if (t instanceof E0) System.out.println(t.getMessage());
        }
        int v37 = M.i0;
        System.out.println(i0);
        System.out.println(sb.toString());
    }
}

interface I0 {
    int f(int x);
}

interface I1 extends I0 {
    int K = 77;
    String NAME = "I1";
    int g(int x, long y);
}

abstract class A implements I0 {
    int fi;
    byte fb;
    short fs;
    char fc;
    long fl;
    boolean fz;
    A next;
    static int si = 3;
    static {
        System.out.println("init A");
        int q = 1 / (M.i0 & 1);
        System.out.println(q);
    }
    A(int x) {
        fi = x;
        fl = x * 3L;
    }
    A() {
        this(4);
    }
    int m0(int x) {
        M.i0 >>= M.ba[3];
        return M.ca[0];
    }
    abstract int m1(int x);
    public int f(int x) {
        return m0(x) + 1;
    }
    long wide(long y, int x) {
        return y * 31 + x;
    }
    A me() {
        return this;
    }
    String name(int x) {
        return "A";
    }
}

class B extends A {
    static int si2 = 5;
    int fi2;
    B(int x) {
        super(x + 1);
        fi2 = x;
        next = this;
    }
    int m1(int x) {
        return m0(x) - fi2;
    }
    int m0(int x) {
        return super.m0(x) * 2;
    }
    String name(int x) {
        return "B".concat(String.valueOf(x));
    }
}

class C extends A {
    static int si3;
    C(int x) {
        fb = (byte) x;
    }
    int m1(int x) {
        try {
            long v1 = M.l0;
            A[] v2 = new D[2];
            M.ia[0] += (int) M.iia[(M.i0--)][x];
        } catch (StringIndexOutOfBoundsException v3) {
            System.out.println("StringIndexOutOfBoundsException 1");
            System.out.println(x);
        } catch (IndexOutOfBoundsException v4) {
            System.out.println("IndexOutOfBoundsException 2");
            System.out.println((M.i0 * (B.si2 + M.i0)));
        } catch (RuntimeException v5) {
            System.out.println("RuntimeException 3");
            System.out.println((M.l0 & (M.la[3] & ((long) (x * x)))));
        } catch (Throwable v6) {
            System.out.println("Throwable 4");
        }
        return ((M.i0++) ^ Integer.parseInt(M.s0));
    }
}

class D extends B implements I1 {
    static int sd = S1.x;
    static {
        System.out.println("init D");
        System.out.println(S0.x);
    }
    D(int x) {
        super(x);
    }
    public int g(int x, long y) {
        return x + (int) y;
    }
    String name(int x) {
        return super.name(x).concat("D");
    }
}

final class Q implements I1 {
    private int h;
    static {
        System.out.println("init Q");
        int q = 1 / (M.i0 & 1);
        System.out.println(q);
    }
    Q(int x) {
        h = x;
    }
    public int f(int x) {
        return h ^ x;
    }
    public int g(int x, long y) {
        return h;
    }
}

class S0 {
    static int x = 1;
    static {
        System.out.println("init S0");
        if (M.i0 % 2 == 0) M.boom();
    }
}

class S1 {
    static final String T = "tee";
    static int x = M.i0 / (M.i0 & 3);
    static {
        System.out.println("init S1");
        M.i0 += 3;
    }
}

class E0 extends RuntimeException {
    E0() {
        super();
    }
    E0(String s) {
        super(s);
    }
}

class E1 extends E0 {
    int extra = 3;
    E1() {
        this("one");
    }
    E1(String s) {
        super(s);
    }
}

class E2 extends E1 {
    E2() {
    }
    E2(String s) {
        super(s);
    }
    public String getMessage() {
        return "two";
    }
}
