package p10;

public class M {
    static int i0 = 2;
    static long l0 = 36090L;
    static int[] ia = {1, 2, 3, 4};
    static int[] ja = new int[5];
    static byte[] ba = {1, -1, 127, -128};
    static char[] ca = new char[4];
    static short[] ha = new short[4];
    static long[] la = new long[6];
    static A a0, a1;
    static I0 o0;
    static Object p0;
    static String s0 = "start";
    static A[] aa = new A[4];
    static A[] bb;
    static Object[] oa = new Object[4];
    static int[][] iia = new int[3][4];
    static StringBuffer sb = new StringBuffer();
    static int boom() {
        throw new E1("boom");
    }
    static int h0(int x, long y, Object p, int n) {
        if (n <= 0) return x;
        for (int v1 = 0; v1 < 3; v1++) {
            if (String.valueOf(((2L / y) % 10L)).equals(p)) {
                int v2 = h0(1, new D((x & M.i0)).fl, p, n - 1);
                M.i0 += ((char) ((x >>> ((short) v2)) & M.ba[x]));
            } else {
            }
            System.out.println((M.ba[0] - ((int) y)));
        }
        System.out.println(((-98748) < "12".length()));
        S0.x = M.i0;
        return M.ha[M.i0];
    }
    static int h1(int x, long y, Object p, int n) {
        if (n <= 0) return x;
        M.oa[2] = M.bb;
        A.si = 5;
        return M.ja[3];
    }
    static int h2(int x, long y, Object p, int n) {
        if (n <= 0) return x;
        long[] v3 = new long[5];
        if ((M.sb.length() > (Integer.parseInt("".concat(M.s0)) * M.i0))) throw new E2("m");
        return (h1(x, M.l0, M.p0, n - 1) - M.s0.charAt(3));
    }
    static void set() {
        a0 = new B(3);
        a1 = new D(5);
        o0 = new Q(6);
        p0 = a1;
        aa[0] = a0;
        aa[1] = a1;
        bb = new B[4];
        oa[0] = s0;
        oa[1] = ia;
        oa[2] = a0;
    }
    public static void main(String[] args) {
        int n = 3;
        try {
            set();
        } catch (Throwable t) {
            System.out.println("set");
        }
        try {
            System.out.println(M.s0);
        } catch (Throwable t) {
            System.out.println("T");
            if (t instanceof E0) System.out.println(t.getMessage());
        }
        try {
            M.la[0] = ((long) (M.iia[32767][3] * (M.i0 & M.ba[3])));
        } catch (Throwable t) {
            System.out.println("T");
            if (t instanceof E0) System.out.println(t.getMessage());
        }
        System.out.println((char) (97 + ((M.ba[2] ^ M.s0.length()) & 15)));
        try {
            A.si = M.ba[3];
        } catch (Throwable t) {
            System.out.println("T");
            if (t instanceof E0) System.out.println(t.getMessage());
        }
        try {
            System.out.println(((I0) (Object) M.p0).f(M.sb.length()));
        } catch (Throwable t) {
            System.out.println("T");
            if (t instanceof E0) System.out.println(t.getMessage());
        }
        try {
            try {
                System.out.println(M.a0.fl);
                System.out.println(M.ca[1]);
            } catch (E2 v4) {
                System.out.println("E2 1");
                System.out.println(v4.getMessage());
                int v5 = M.a1.m1(M.sb.length());
            } catch (ArrayIndexOutOfBoundsException v6) {
                System.out.println("ArrayIndexOutOfBoundsException 2");
            } catch (IndexOutOfBoundsException v7) {
                System.out.println("IndexOutOfBoundsException 3");
                try {
                    M.oa[((65535 - M.i0) & M.a1.fb)] = M.p0;
                    long v8 = (M.l0 / 10L);
                } catch (ArithmeticException v9) {
                    System.out.println("ArithmeticException 4");
                } catch (ArrayIndexOutOfBoundsException v10) {
                    System.out.println("ArrayIndexOutOfBoundsException 5");
                    System.out.println((M.l0 + (M.la[1] << M.ha[2])));
                } catch (NullPointerException v11) {
                    System.out.println("NullPointerException 6");
                    M.sb.append(((A) (Object) M.s0).fl);
                } catch (NegativeArraySizeException v12) {
                    System.out.println("NegativeArraySizeException 7");
                    int v13 = (M.s0.equals(M.p0) ? ((I0) M.a1).f(M.a0.fb) : M.iia.length);
                } catch (IllegalArgumentException v14) {
                    System.out.println("IllegalArgumentException 8");
                    long v15 = (M.la[M.ba[2]] / M.a1.me().wide(((M.l0 >> M.i0) - (M.l0 / 1L)), M.i0));
                } catch (E0 v16) {
                    System.out.println("E0 9");
                    System.out.println(v16.getMessage());
                } catch (NoClassDefFoundError v17) {
                    System.out.println("NoClassDefFoundError 10");
                    int v18 = M.ba[0];
                } catch (LinkageError v19) {
                    System.out.println("LinkageError 11");
                    A[] v20 = new A[1];
                    if (M.iia[M.la.length][1] > 100) throw v19;
                }
            } catch (IllegalArgumentException v21) {
                System.out.println("IllegalArgumentException 12");
                System.out.println((255 != M.i0));
            }
        } catch (Throwable t) {
            System.out.println("T");
            if (t instanceof E0) System.out.println(t.getMessage());
        }
        try {
            System.out.println(((String) null));
        } catch (Throwable t) {
            System.out.println("T");
            if (t instanceof E0) System.out.println(t.getMessage());
        }
        M.ia[1] = (int) (M.sb.length() & ((short) M.i0));
        int v22 = Integer.parseInt(M.a0.next.name(M.ca[3]));
        try {
            System.out.println(new B((M.sb.length() - M.ba[1])).m0(M.i0));
        } catch (Throwable t) {
            System.out.println("T");
            if (t instanceof E0) System.out.println(t.getMessage());
        }
        try {
            for (int v23 = 0; v23 < 3; v23++) {
                A v24 = new C(65535);
                M.bb[1] = M.a1;
            }
        } catch (Throwable t) {
            System.out.println("T");
            if (t instanceof E0) System.out.println(t.getMessage());
        }
        try {
            switch (M.i0 & 7) {
                case 1: ;
                case 2: Object[] v25 = new I0[1];
                break;
                case 100: System.out.println(M.l0);
                default: System.out.println("d");
            }
        } catch (Throwable t) {
            System.out.println("T");
            if (t instanceof E0) System.out.println(t.getMessage());
        }
        try {
            try {
                Object v26 = M.o0;
            } catch (E2 v27) {
                System.out.println("E2 13");
                System.out.println(v27.getMessage());
            } catch (ArithmeticException v28) {
                System.out.println("ArithmeticException 14");
            } catch (IndexOutOfBoundsException v29) {
                System.out.println("IndexOutOfBoundsException 15");
            } catch (NullPointerException v30) {
                System.out.println("NullPointerException 16");
                M.sb.append(M.s0);
            } catch (NumberFormatException v31) {
                System.out.println("NumberFormatException 17");
                System.out.println(M.s0);
                if (Integer.parseInt("12") > 100) throw v31;
            } catch (Throwable v32) {
                System.out.println("Throwable 18");
            }
        } catch (Throwable t) {
            System.out.println("T");
            if (t instanceof E0) System.out.println(t.getMessage());
        }
        try {
            System.out.println(M.bb[3].m1(M.aa.length));
        } catch (Throwable t) {
            System.out.println("T");
            if (t instanceof E0) System.out.println(t.getMessage());
        }
        if ((((Object) M.oa) != (Object) M.p0)) {
            long v33 = M.l0;
        } else {
            try {
                System.out.println(M.a1.m0(((char) I1.K)));
            } catch (ArithmeticException v34) {
                System.out.println("ArithmeticException 19");
                if (Integer.parseInt(M.s0) > 100) throw v34;
            } catch (E0 v35) {
                System.out.println("E0 20");
                System.out.println(v35.getMessage());
                I0 v36 = M.o0;
            } catch (RuntimeException v37) {
                System.out.println("RuntimeException 21");
                System.out.println((M.la[v22] >>> M.a1.fb));
            }
        }
        try {
            System.out.println((M.iia[2][0] == ((M.ja[2] >> h0((-6647), M.l0, M.p0, n - 1)) >> M.ia[M.i0])));
        } catch (Throwable t) {
            System.out.println("T");
            if (t instanceof E0) System.out.println(t.getMessage());
        }
        A v38 = ((B) M.a1);
        try {
            try {
                M.oa[1] = M.o0;
            } catch (ArithmeticException v39) {
                System.out.println("ArithmeticException 22");
                System.out.println(M.s0);
            } catch (ArrayIndexOutOfBoundsException v40) {
                System.out.println("ArrayIndexOutOfBoundsException 23");
            } catch (ArrayStoreException v41) {
                System.out.println("ArrayStoreException 24");
            } catch (LinkageError v42) {
                System.out.println("LinkageError 25");
            }
        } catch (Throwable t) {
            System.out.println("T");
            if (t instanceof E0) System.out.println(t.getMessage());
        }
        try {
            System.out.println((M.ja[0] - M.i0));
        } catch (Throwable t) {
            System.out.println("T");
            if (t instanceof E0) System.out.println(t.getMessage());
        }
        S0.x = M.ha[2];
        try {
            M.bb[(((byte) (-128)) & (v22 / 7))] = v38;
        } catch (Throwable t) {
            System.out.println("T");
            if (t instanceof E0) System.out.println(t.getMessage());
        }
        try {
            M.ja[3] += (int) M.bb.length;
        } catch (Throwable t) {
            System.out.println("T");
            if (t instanceof E0) System.out.println(t.getMessage());
        }
        try {
            M.sb.append(((String) (Object) M.o0));
        } catch (Throwable t) {
            System.out.println("T");
            if (t instanceof E0) System.out.println(t.getMessage());
        }
        try {
            for (int v43 = 0; v43 < 3; v43++) {
                Object v44 = M.p0;
            }
        } catch (Throwable t) {
            System.out.println("T");
            if (t instanceof E0) System.out.println(t.getMessage());
        }
        System.out.println(i0);
        System.out.println(sb.toString());
    }
}

interface I0 {
    int f(int x);
}

interface I1 extends I0 {
    int K = 77;
    String NAME = "I1";
    int g(int x, long y);
}

abstract class A implements I0 {
    int fi;
    byte fb;
    short fs;
    char fc;
    long fl;
    boolean fz;
    A next;
    static int si = 3;
    static {
        System.out.println("init A");
    }
    A(int x) {
        fi = x;
        fl = x * 3L;
    }
    A() {
        this(4);
    }
    int m0(int x) {
        M.a0.fb = (byte) (M.i0++);
        return ((int) (M.l0 << 2147483647));
    }
    abstract int m1(int x);
    public int f(int x) {
        return m0(x) + 1;
    }
    long wide(long y, int x) {
        return y * 31 + x;
    }
    A me() {
        return this;
    }
    String name(int x) {
        return "A";
    }
}

class B extends A {
    static int si2 = 5;
    int fi2;
    B(int x) {
        super(x + 1);
        fi2 = x;
        next = this;
    }
    int m1(int x) {
        return m0(x) - fi2;
    }
    public int f(int x) {
        return x;
    }
    String name(int x) {
        return "B".concat(String.valueOf(x));
    }
}

class C extends A {
    static int si3;
    static {
        System.out.println("init C");
    }
    C(int x) {
        super(x);
        fb = (byte) x;
    }
    int m1(int x) {
        M.bb[3] = M.aa[2];
        return M.s0.length();
    }
}

class D extends B implements I1 {
    static int sd = 7;
    D(int x) {
        super(x);
    }
    public int g(int x, long y) {
        return x + (int) y;
    }
    String name(int x) {
        return super.name(x).concat("D");
    }
}

final class Q implements I1 {
    private int h;
    static {
        System.out.println("init Q");
        S0.x = 9;
    }
    Q(int x) {
        h = x;
    }
    public int f(int x) {
        return h ^ x;
    }
    public int g(int x, long y) {
        return h;
    }
}

class S0 {
    static int x = S1.x + 1;
}

class S1 {
    static final String T = "tee";
    static int x = M.i0 / (M.i0 & 3);
    static {
        System.out.println("init S1");
    }
}

class E0 extends RuntimeException {
    E0() {
        super();
    }
    E0(String s) {
        super(s);
    }
}

class E1 extends E0 {
    int extra = 3;
    E1() {
        this("one");
    }
    E1(String s) {
        super(s);
    }
}

class E2 extends E1 {
    E2() {
    }
    E2(String s) {
        super(s);
    }
    public String getMessage() {
        return "two";
    }
}
