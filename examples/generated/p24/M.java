package p24;

public class M {
    static int i0 = -2;
    static long l0 = 13136L;
    static int[] ia = {1, 2, 3, 4};
    static int[] ja = new int[5];
    static byte[] ba = {1, -1, 127, -128};
    static char[] ca = new char[4];
    static short[] ha = new short[4];
    static long[] la = new long[6];
    static A a0, a1;
    static I0 o0;
    static Object p0;
    static String s0 = "start";
    static A[] aa = new A[4];
    static A[] bb;
    static Object[] oa = new Object[4];
    static int[][] iia = new int[3][4];
    static StringBuffer sb = new StringBuffer();
    static int boom() {
        throw new E1("boom");
    }
    static int h0(int x, long y, Object p, int n) {
        if (n <= 0) return x;
        A v1 = M.a1;
        System.out.println(((!((x - 31) >= M.ca[x])) ? x : (D.sd & (Integer.parseInt("12") & (M.i0--)))));
        System.out.println(((((x <= M.i0) ? (-1) : M.i0) | (x ^ (-2))) & M.oa.length));
        try {
            System.out.println((x / M.a1.m1(((x - x) & M.i0))));
            A[] v2 = new B[2];
        } catch (IndexOutOfBoundsException v3) {
            System.out.println("IndexOutOfBoundsException 1");
        } catch (NumberFormatException v4) {
            System.out.println("NumberFormatException 2");
            M.ja[3] += (int) ((((char) x) & (M.iia[3][2] >>> (true ? M.i0 : M.i0))) + (Integer.parseInt("12") & M.o0.f(M.ca[3])));
        } catch (IllegalArgumentException v5) {
            System.out.println("IllegalArgumentException 3");
        } catch (E0 v6) {
            System.out.println("E0 4");
            System.out.println(v6.getMessage());
            long v7 = (M.a0.fl * 64L);
        } catch (NoClassDefFoundError v8) {
            System.out.println("NoClassDefFoundError 5");
            if (M.i0 > 100) throw v8;
        } catch (ExceptionInInitializerError v9) {
            System.out.println("ExceptionInInitializerError 6");
            Object[] v10 = new int[5][];
        } catch (Throwable v11) {
            System.out.println("Throwable 7");
        }
        return M.iia[3][1];
    }
    static int h1(int x, long y, Object p, int n) {
        if (n <= 0) return x;
        System.arraycopy(M.ia, 3, M.ja, 1, "x".length());
        M.oa[0] = M.bb;
        System.arraycopy(M.la, 3, M.la, 2, ((127 > M.i0) ? M.i0 : M.ba[3]));
        return (M.i0 & S1.x);
    }
    static int h2(int x, long y, Object p, int n) {
        if (n <= 0) return x;
        M.i0 ^= M.a1.fs;
        M.sb.append(((M.i0--) ^ M.ja[0]));
        long v12 = (y ^ (M.a0.wide(y, M.i0) >> (B.si2 + (0 % 7))));
        return M.ca[3];
    }
    static void set() {
        a0 = new B(3);
        a1 = new D(5);
        o0 = new Q(6);
        p0 = a1;
        aa[0] = a0;
        aa[1] = a1;
        bb = new B[4];
        oa[0] = s0;
        oa[1] = ia;
        oa[2] = a0;
    }
    public static void main(String[] args) {
        int n = 3;
        try {
            set();
        } catch (Throwable t) {
            System.out.println("set");
        }
        try {
            for (int v13 = 0; v13 < 1; v13++) {
                M.sb.append(((A) (Object) M.aa).fb);
                System.out.println(M.a0.fi);
            }
        } catch (Throwable t) {
            System.out.println("T");
            if (t instanceof E0) System.out.println(t.getMessage());
        }
        try {
            System.arraycopy(M.oa, 2, M.oa, 3, 2);
        } catch (Throwable t) {
            System.out.println("T");
            if (t instanceof E0) System.out.println(t.getMessage());
        }
        try {
            System.out.println((char) (97 + (M.a0.fb & 15)));
        } catch (Throwable t) {
            System.out.println("T");
            if (t instanceof E0) System.out.println(t.getMessage());
        }
        try {
            System.out.println(((long) S1.x));
        } catch (Throwable t) {
            System.out.println("T");
            if (t instanceof E0) System.out.println(t.getMessage());
        }
        try {
            System.arraycopy(M.bb, "ab".length(), M.aa, 1, 2);
        } catch (Throwable t) {
            System.out.println("T");
            if (t instanceof E0) System.out.println(t.getMessage());
        }
        try {
            System.out.println(M.i0);
        } catch (Throwable t) {
            System.out.println("T");
            if (t instanceof E0) System.out.println(t.getMessage());
        }
        byte[] v14 = new byte[5];
        try {
            try {
                if (((((((Object) M.p0) != (Object) M.p0) ? M.ca[2] : M.i0) != M.i0) ^ "a longer text".equals("x"))) {
                    if (((-36657) <= (Integer.parseInt("-7") ^ M.i0))) throw new E1("a longer text");
                } else {
                }
            } catch (StringIndexOutOfBoundsException v15) {
                System.out.println("StringIndexOutOfBoundsException 8");
            } catch (IndexOutOfBoundsException v16) {
                System.out.println("IndexOutOfBoundsException 9");
                if ((M.i0 >>> (((char) Integer.parseInt("12")) * Integer.parseInt("ab"))) > 100) throw v16;
            } catch (NullPointerException v17) {
                System.out.println("NullPointerException 10");
                if (M.iia[2][3] > 100) throw v17;
            } catch (ClassCastException v18) {
                System.out.println("ClassCastException 11");
            } catch (ArrayStoreException v19) {
                System.out.println("ArrayStoreException 12");
            } catch (NumberFormatException v20) {
                System.out.println("NumberFormatException 13");
                M.sb.append((((M.a1.fl | (M.l0 >>> M.i0)) + (M.a0.wide(M.l0, M.i0) ^ M.a1.fl)) >> M.i0));
            } catch (IllegalArgumentException v21) {
                System.out.println("IllegalArgumentException 14");
                System.out.println(((String) (Object) M.p0));
            } catch (RuntimeException v22) {
                System.out.println("RuntimeException 15");
            }
        } catch (Throwable t) {
            System.out.println("T");
            if (t instanceof E0) System.out.println(t.getMessage());
        }
        try {
            M.oa[0] = M.p0;
        } catch (Throwable t) {
            System.out.println("T");
            if (t instanceof E0) System.out.println(t.getMessage());
        }
        try {
            M.ca["a longer text".length()] = (char) (M.i0++);
        } catch (Throwable t) {
            System.out.println("T");
            if (t instanceof E0) System.out.println(t.getMessage());
        }
        long v23 = (((M.l0 * 2L) | ((M.l0 + M.l0) / (M.l0 >>> (-128)))) * M.l0);
        System.out.println(v14[2]);
        try {
            try {
                System.out.println((char) (97 + (((short) ((((-2) * 65536) | I1.NAME.charAt(0)) * (M.ja[2] + M.a0.m1((-128))))) & 15)));
                for (int v24 = 0; v24 < 2; v24++) {
                    int v25 = new D(M.s0.concat(M.s0).charAt(1)).fb;
                }
            } catch (ArithmeticException v26) {
                System.out.println("ArithmeticException 16");
                M.ja[2] += (int) (M.i0 - 8);
            } catch (StringIndexOutOfBoundsException v27) {
                System.out.println("StringIndexOutOfBoundsException 17");
                M.a1.next = M.a0;
            } catch (E0 v28) {
                System.out.println("E0 18");
                System.out.println(v28.getMessage());
            } catch (RuntimeException v29) {
                System.out.println("RuntimeException 19");
            } catch (ExceptionInInitializerError v30) {
                System.out.println("ExceptionInInitializerError 20");
            } catch (LinkageError v31) {
                System.out.println("LinkageError 21");
                System.out.println(31);
            }
        } catch (Throwable t) {
            System.out.println("T");
            if (t instanceof E0) System.out.println(t.getMessage());
        }
        long v32 = 9223372036854775807L;
        A[] v33 = new D[5];
        try {
            System.out.println(v23);
        } catch (Throwable t) {
            System.out.println("T");
            if (t instanceof E0) System.out.println(t.getMessage());
        }
        try {
            System.out.println((((5 * ((int) v23)) >>> M.a0.fs) > Integer.parseInt("")));
        } catch (Throwable t) {
            System.out.println("T");
            if (t instanceof E0) System.out.println(t.getMessage());
        }
        try {
            System.out.println((D.sd ^ Integer.parseInt("-7")));
        } catch (Throwable t) {
            System.out.println("T");
            if (t instanceof E0) System.out.println(t.getMessage());
        }
        try {
            System.arraycopy(M.oa, 2, M.oa, 2, 0);
        } catch (Throwable t) {
            System.out.println("T");
            if (t instanceof E0) System.out.println(t.getMessage());
        }
        int v34 = M.ha[((M.i0 * M.i0) + (M.i0 << M.i0))];
        try {
            switch ((v34 & ((I1.NAME.charAt(2) - M.sb.length()) * (((int) v32) / M.a1.fc))) ) {
                case 2: ;
                break;
                case 5: System.out.println((new Q(h1(M.i0, v32, M.p0, n - 1)).f(M.i0) * M.o0.f((M.i0 << 28694))));
                break;
                default: System.out.println("d");
            }
        } catch (Throwable t) {
            System.out.println("T");
            if (t instanceof E0) System.out.println(t.getMessage());
        }
        A v35 = M.a1;
        try {
            M.oa[2] = M.p0;
        } catch (Throwable t) {
            System.out.println("T");
            if (t instanceof E0) System.out.println(t.getMessage());
        }
        System.out.println(i0);
        System.out.println(sb.toString());
    }
}

interface I0 {
    int f(int x);
}

interface I1 extends I0 {
    int K = 77;
    String NAME = "I1";
    int g(int x, long y);
}

abstract class A implements I0 {
    int fi;
    byte fb;
    short fs;
    char fc;
    long fl;
    boolean fz;
    A next;
    static int si = 0;
    A(int x) {
        fi = x;
        fl = x * 3L;
    }
    A() {
        this(4);
    }
    int m0(int x) {
        if (((M.ja[2] > x) || (!(((int) 0L) >= M.bb.length)))) {
            System.out.println(((I0) M.a0.next).f(M.ja[2]));
            M.oa[1] = M.p0;
        } else {
        }
        return M.i0;
    }
    abstract int m1(int x);
    public int f(int x) {
        return m0(x) + 1;
    }
    long wide(long y, int x) {
        return y * 31 + x;
    }
    A me() {
        return this;
    }
    String name(int x) {
        return "A";
    }
}

class B extends A {
    static int si2 = 5;
    static {
        System.out.println("init B");
        M.i0 += 3;
    }
    int fi2;
    B(int x) {
        super(x + 1);
        fi2 = x;
        next = this;
    }
    int m1(int x) {
        return m0(x) - fi2;
    }
    int m0(int x) {
        return super.m0(x) * 2;
    }
    String name(int x) {
        return "B".concat(String.valueOf(x));
    }
}

class C extends A {
    static int si3;
    static {
        System.out.println("init C");
        int q = 1 / (M.i0 & 1);
        System.out.println(q);
    }
    C(int x) {
        super(x);
        fb = (byte) x;
    }
    int m1(int x) {
        System.out.println(M.ca[3]);
        return M.i0;
    }
}

class D extends B implements I1 {
    static int sd = M.i0 * 2;
    D(int x) {
        super(x);
    }
    public int g(int x, long y) {
        return x + (int) y;
    }
    String name(int x) {
        return super.name(x).concat("D");
    }
}

final class Q implements I1 {
    private int h;
    static {
        System.out.println("init Q");
        S0.x = 9;
    }
    Q(int x) {
        h = x;
    }
    public int f(int x) {
        return h ^ x;
    }
    public int g(int x, long y) {
        return h;
    }
}

class S0 {
    static int x = M.i0;
    static {
        System.out.println("init S0");
        int q = 1 / (M.i0 & 1);
        System.out.println(q);
    }
}

class S1 {
    static final String T = "tee";
    static int x = M.i0 / (M.i0 & 3);
    static {
        System.out.println("init S1");
        S0.x = 9;
    }
}

class E0 extends RuntimeException {
    E0() {
        super();
    }
    E0(String s) {
        super(s);
    }
}

class E1 extends E0 {
    int extra = 3;
    E1() {
        this("one");
    }
    E1(String s) {
        super(s);
    }
}

class E2 extends E1 {
    E2() {
    }
    E2(String s) {
        super(s);
    }
    public String getMessage() {
        return "two";
    }
}
