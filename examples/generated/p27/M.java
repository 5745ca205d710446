package p27;

public class M {
    static int i0 = 5;
    static long l0 = 27685L;
    static int[] ia = {1, 2, 3, 4};
    static int[] ja = new int[5];
    static byte[] ba = {1, -1, 127, -128};
    static char[] ca = new char[4];
    static short[] ha = new short[4];
    static long[] la = new long[6];
    static A a0, a1;
    static I0 o0;
    static Object p0;
    static String s0 = "start";
    static A[] aa = new A[4];
    static A[] bb;
    static Object[] oa = new Object[4];
    static int[][] iia = new int[3][4];
    static StringBuffer sb = new StringBuffer();
    static int boom() {
        throw new E1("boom");
    }
    static int h0(int x, long y, Object p, int n) {
        if (n <= 0) return x;
        try {
            M.oa[0] = M.aa;
            System.out.println(M.l0);
            System.out.println(M.s0.equals(M.p0));
        } catch (StringIndexOutOfBoundsException v1) {
            System.out.println("StringIndexOutOfBoundsException 1");
            switch (x % 5) {
                case -1: ;
                case 1: ;
                break;
                case 2: System.out.println((M.a1.wide(M.l0, M.ja[1]) * (y >> M.iia[3][2])));
                default: System.out.println("d");
            }
        } catch (NoClassDefFoundError v2) {
            System.out.println("NoClassDefFoundError 2");
        }
        for (int v3 = 0; v3 < 4; v3++) {
            try {
                long v4 = M.a1.fl;
                System.out.println(M.i0);
            } catch (E2 v5) {
                System.out.println("E2 3");
                System.out.println(v5.getMessage());
            } catch (ArithmeticException v6) {
                System.out.println("ArithmeticException 4");
            } catch (NoClassDefFoundError v7) {
                System.out.println("NoClassDefFoundError 5");
            } catch (ExceptionInInitializerError v8) {
                System.out.println("ExceptionInInitializerError 6");
            } catch (Throwable v9) {
                System.out.println("Throwable 7");
                System.out.println(M.ha[3]);
            }
            M.aa[0] = M.a0;
        }
        System.out.println(((M.i0 % 7) | ((((int) M.l0) / 3) - Integer.parseInt("99999999999"))));
        return ((M.i0 * 2147483647) - "12".length());
    }
    static int h1(int x, long y, Object p, int n) {
        if (n <= 0) return x;
        A[] v10 = new A[2];
        M.a1.fl += M.la[((x--) % -5)];
        return ((x > x) ? M.ba[3] : (M.i0 >>> M.i0));
    }
    static int h2(int x, long y, Object p, int n) {
        if (n <= 0) return x;
        for (int v11 = 0; v11 < 1; v11++) {
            M.a1.next = M.a0;
            long v12 = ((A) (Object) M.p0).wide((((y | y) ^ (y >> 5)) & M.la[2]), ((((x > 0) ? M.i0 : M.i0) & M.ba[0]) | M.a1.fi));
        }
        if ((((Object) ((Object) null)) instanceof I1)) throw new IllegalStateException(M.s0);
        System.out.println(33);
        int v13 = M.s0.length();
        return (x++);
    }
    static void set() {
        a0 = new B(3);
        a1 = new D(5);
        o0 = new Q(6);
        p0 = a1;
        aa[0] = a0;
        aa[1] = a1;
        bb = new B[4];
        oa[0] = s0;
        oa[1] = ia;
        oa[2] = a0;
    }
    public static void main(String[] args) {
        int n = 3;
        try {
            set();
        } catch (Throwable t) {
            System.out.println("set");
        }
        try {
            System.out.println((char) (97 + (M.iia[3][1] & 15)));
        } catch (Throwable t) {
            System.out.println("T");
            if (t instanceof E0) System.out.println(t.getMessage());
        }
        try {
            M.aa[1] = M.bb[3];
        } catch (Throwable t) {
            System.out.println("T");
            if (t instanceof E0) System.out.println(t.getMessage());
        }
        long v14 = (((M.l0 % 10L) * ((M.l0 & M.l0) << M.i0)) ^ M.l0);
        try {
            System.out.println(M.i0);
        } catch (Throwable t) {
            System.out.println("T");
            if (t instanceof E0) System.out.println(t.getMessage());
        }
        try {
            switch (((M.ja.length * M.sb.toString().charAt(0)) + B.si2) & 7) {
                case 1: ;
                case 5: M.oa[M.iia[0][3]] = M.a0;
                case 100: ;
                break;
                default: System.out.println("d");
            }
        } catch (Throwable t) {
            System.out.println("T");
            if (t instanceof E0) System.out.println(t.getMessage());
        }
        int v15 = M.s0.length();
        int v16 = ((I0) M.a1).f((M.a1.fc & M.ha[2]));
        try {
            A.si = ((short) ((int) 255L));
        } catch (Throwable t) {
            System.out.println("T");
            if (t instanceof E0) System.out.println(t.getMessage());
        }
        try {
            System.out.println(I1.NAME);
        } catch (Throwable t) {
            System.out.println("T");
            if (t instanceof E0) System.out.println(t.getMessage());
        }
        A.si = M.a0.fc;
        try {
            System.out.println(M.ha[((v15 % 3) ^ v16)]);
        } catch (Throwable t) {
            System.out.println("T");
            if (t instanceof E0) System.out.println(t.getMessage());
        }
        long v17 = M.a0.wide((((v14 - M.l0) >> (-1)) * ((v14 * v14) >>> 128)), M.ia[1]);
        try {
            System.out.println((((Object) M.p0) != (Object) M.p0));
        } catch (Throwable t) {
            System.out.println("T");
            if (t instanceof E0) System.out.println(t.getMessage());
        }
        try {
            if ((M.a0.fs >= v16)) {
                try {
                    M.i0 += ((int) ((v14 + v14) / 3L));
                } catch (ArrayIndexOutOfBoundsException v18) {
                    System.out.println("ArrayIndexOutOfBoundsException 8");
                    System.out.println((M.iia[0][1] << (M.a1.m0(M.i0) >>> M.ja[3])));
                    if (128 > 100) throw v18;
                } catch (NullPointerException v19) {
                    System.out.println("NullPointerException 9");
                    long[] v20 = new long[4];
                } catch (NoClassDefFoundError v21) {
                    System.out.println("NoClassDefFoundError 10");
                }
            } else {
                M.oa[3] = M.p0;
            }
        } catch (Throwable t) {
            System.out.println("T");
            if (t instanceof E0) System.out.println(t.getMessage());
        }
        try {
            System.out.println(v17);
        } catch (Throwable t) {
            System.out.println("T");
            if (t instanceof E0) System.out.println(t.getMessage());
        }
        try {
            M.la[0] = ((M.la[v16] / ((long) Integer.parseInt(M.s0))) % 10L);
            System.out.println(((v14 & 4294967296L) == (((v14 & v14) << M.a0.m1(v16)) - v17)));
        } catch (E1 v22) {
            System.out.println("E1 11");
            System.out.println(v22.getMessage());
        } catch (NumberFormatException v23) {
            System.out.println("NumberFormatException 12");
        } catch (IllegalArgumentException v24) {
            System.out.println("IllegalArgumentException 13");
        } catch (RuntimeException v25) {
            System.out.println("RuntimeException 14");
            switch (32767 & 7) {
                case 1: D.sd ^= (((((long) v16) == v14) ? ((v16 - v15) & M.sb.length()) : (I1.NAME.length() + M.ha[3])) & M.i0);
                break;
                case 2: int v26 = (v15 - new B((M.i0 - 3)).m1(M.i0));
                break;
                case 3: ;
                break;
                case 5: ;
                default: System.out.println("d");
            }
        }
        int[] v27 = new int[3];
        int[] v28 = new int[3];
        M.i0 *= (M.i0 ^ v16);
        try {
            M.sb.append((char) (102));
        } catch (Throwable t) {
            System.out.println("T");
            if (t instanceof E0) System.out.println(t.getMessage());
        }
        try {
            M.a1.next = new B(((1L < v14) ? (v15 + v15) : M.ba[2]));
        } catch (Throwable t) {
            System.out.println("T");
            if (t instanceof E0) System.out.println(t.getMessage());
        }
        try {
            M.la[2] = ((long) (v16 ^ M.sb.length()));
        } catch (Throwable t) {
            System.out.println("T");
            if (t instanceof E0) System.out.println(t.getMessage());
        }
        try {
            M.a0.fi = M.i0;
        } catch (Throwable t) {
            System.out.println("T");
            if (t instanceof E0) System.out.println(t.getMessage());
        }
        try {
            M.aa[M.i0] = M.a0;
        } catch (E1 v29) {
            System.out.println("E1 15");
            System.out.println(v29.getMessage());
        } catch (ArithmeticException v30) {
            System.out.println("ArithmeticException 16");
            System.out.println((((Object) v28) instanceof int[]));
        } catch (StringIndexOutOfBoundsException v31) {
            System.out.println("StringIndexOutOfBoundsException 17");
        } catch (NegativeArraySizeException v32) {
            System.out.println("NegativeArraySizeException 18");
            v15 += M.bb.length;
        } catch (NoClassDefFoundError v33) {
            System.out.println("NoClassDefFoundError 19");
            byte[] v34 = new byte[1];
        } catch (ExceptionInInitializerError v35) {
            System.out.println("ExceptionInInitializerError 20");
            M.aa[1] = M.a0;
            if (v16 > 100) throw v35;
        } catch (LinkageError v36) {
            System.out.println("LinkageError 21");
            System.out.println(v17);
        } catch (Throwable v37) {
            System.out.println("Throwable 22");
            System.out.println((((v16--) ^ ((int) (v17 & M.l0))) > (M.ca[v15] << M.s0.length())));
        }
        System.arraycopy(M.aa, 3, M.aa, 2, 1);
        System.out.println(i0);
        System.out.println(sb.toString());
    }
}

interface I0 {
    int f(int x);
}

interface I1 extends I0 {
    int K = 77;
    String NAME = "I1";
    int g(int x, long y);
}

abstract class A implements I0 {
    int fi;
    byte fb;
    short fs;
    char fc;
    long fl;
    boolean fz;
    A next;
    static int si = 3;
    static {
        System.out.println("init A");
        int q = 1 / (M.i0 & 1);
        System.out.println(q);
    }
    A(int x) {
        fi = x;
        fl = x * 3L;
    }
    A() {
        this(4);
    }
    int m0(int x) {
        System.out.println(M.sb.length());
        return M.i0;
    }
    abstract int m1(int x);
    public int f(int x) {
        return m0(x) + 1;
    }
    long wide(long y, int x) {
        return y * 31 + x;
    }
    A me() {
        return this;
    }
    String name(int x) {
        return "A";
    }
}

class B extends A {
    static int si2 = 5;
    int fi2;
    B(int x) {
        super(x + 1);
        fi2 = x;
        next = this;
    }
    int m1(int x) {
        return m0(x) - fi2;
    }
    String name(int x) {
        return "B".concat(String.valueOf(x));
    }
}

class C extends A {
    static int si3;
    static {
        System.out.println("init C");
        int q = 1 / (M.i0 & 1);
        System.out.println(q);
    }
    C(int x) {
        super(x);
        fb = (byte) x;
    }
    int m1(int x) {
        System.arraycopy(M.bb, x, M.aa, (M.i0++), 0);
        return M.a1.fi;
    }
    A me() {
        return next;
    }
}

class D extends B implements I1 {
    static int sd = S1.x;
    static {
        System.out.println("init D");
        S0.x = 9;
    }
    D(int x) {
        super(x);
    }
    public int g(int x, long y) {
        return x + (int) y;
    }
    int m1(int x) {
        return super.m1(x) ^ 21;
    }
    String name(int x) {
        return super.name(x).concat("D");
    }
}

final class Q implements I1 {
    private int h;
    static {
        System.out.println("init Q");
        int q = 1 / (M.i0 & 1);
        System.out.println(q);
    }
    Q(int x) {
        h = x;
    }
    public int f(int x) {
        return h ^ x;
    }
    public int g(int x, long y) {
        return h;
    }
}

class S0 {
    static int x = M.i0;
}

class S1 {
    static final String T = "tee";
    static int x = M.i0 / (M.i0 & 3);
}

class E0 extends RuntimeException {
    E0() {
        super();
    }
    E0(String s) {
        super(s);
    }
}

class E1 extends E0 {
    int extra = 3;
    E1() {
        this("one");
    }
    E1(String s) {
        super(s);
    }
}

class E2 extends E1 {
    E2() {
    }
    E2(String s) {
        super(s);
    }
    public String getMessage() {
        return "two";
    }
}
