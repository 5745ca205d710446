package p21;

public class M {
    static int i0 = 1;
    static long l0 = 72342L;
    static int[] ia = {1, 2, 3, 4};
    static int[] ja = new int[5];
    static byte[] ba = {1, -1, 127, -128};
    static char[] ca = new char[4];
    static short[] ha = new short[4];
    static long[] la = new long[6];
    static A a0, a1;
    static I0 o0;
    static Object p0;
    static String s0 = "start";
    static A[] aa = new A[4];
    static A[] bb;
    static Object[] oa = new Object[4];
    static int[][] iia = new int[3][4];
    static StringBuffer sb = new StringBuffer();
    static int boom() {
        throw new E1("boom");
    }
    static int h0(int x, long y, Object p, int n) {
        if (n <= 0) return x;
        System.out.println((((Object) M.a0) != (Object) M.p0));
        System.out.println(M.s0);
        I0 v2 = ((I1) (Object) M.p0);
        try {
            System.out.println(((I0) (Object) M.p0).f(M.ba[1]));
            System.out.println(M.l0);
            A[] v3 = new D[3];
        } catch (ClassCastException v4) {
            System.out.println("ClassCastException 1");
        } catch (RuntimeException v5) {
            System.out.println("RuntimeException 2");
            if (M.i0 > 100) throw v5;
        } catch (Throwable v6) {
            System.out.println("Throwable 3");
        }
        return (((int) y) << (128 % 10));
    }
    static int h1(int x, long y, Object p, int n) {
        if (n <= 0) return x;
        M.oa[1] = M.p0;
        System.arraycopy(M.la, 3, M.la, 3, 1);
        Object[] v7 = new String[1];
        return M.ha[0];
    }
    static int h2(int x, long y, Object p, int n) {
        if (n <= 0) return x;
        M.oa[0] = M.oa[2];
        System.arraycopy(M.ja, 2, M.ia, x, 1);
        return D.sd;
    }
    static void set() {
        a0 = new B(3);
        a1 = new D(5);
        o0 = new Q(6);
        p0 = a1;
        aa[0] = a0;
        aa[1] = a1;
        bb = new B[4];
        oa[0] = s0;
        oa[1] = ia;
        oa[2] = a0;
    }
    public static void main(String[] args) {
        int n = 3;
        try {
            set();
        } catch (Throwable t) {
            System.out.println("set");
        }
        try {
            System.out.println(String.valueOf(((M.i0 >= 3) ^ "x".equals(M.p0))).charAt(1));
        } catch (Throwable t) {
            System.out.println("T");
            if (t instanceof E0) System.out.println(t.getMessage());
        }
        try {
            System.out.println(63L);
        } catch (Throwable t) {
            System.out.println("T");
            if (t instanceof E0) System.out.println(t.getMessage());
        }
        Object v8 = M.p0;
        try {
            if (((!((((Object) v8) instanceof String) ^ (((Object) M.p0) == (Object) v8))) && (((Object) v8) == (Object) M.aa))) {
                switch (2 & 7) {
                    case -1: int v9 = Integer.parseInt(M.s0);
                    case 1: ;
                    case 2: M.ba[1] = (byte) (2 & Integer.parseInt(I1.NAME));
                    default: System.out.println("d");
                }
            } else {
                System.out.println(1234567890123L);
                A.si = M.sb.length();
            }
        } catch (Throwable t) {
            System.out.println("T");
            if (t instanceof E0) System.out.println(t.getMessage());
        }
        Object v10 = v8;
        int v11 = M.s0.length();
        try {
            M.i0 *= v11;
        } catch (Throwable t) {
            System.out.println("T");
            if (t instanceof E0) System.out.println(t.getMessage());
        }
        try {
            new D(M.oa.length).fs = (short) String.valueOf(((v11 - v11) == M.i0)).charAt(M.s0.length());
        } catch (Throwable t) {
            System.out.println("T");
            if (t instanceof E0) System.out.println(t.getMessage());
        }
        try {
            try {
                M.aa[M.ca[3]] = new B(M.i0);
                M.sb.append((char) (117));
            } catch (IndexOutOfBoundsException v12) {
                System.out.println("IndexOutOfBoundsException 4");
                long v13 = 1234567890123L;
                if (M.a1.m1((Integer.parseInt(((String) (Object) v10)) * "ab".length())) > 100) throw v12;
            } catch (ClassCastException v14) {
                System.out.println("ClassCastException 5");
                ((B) M.a1).fz = (M.l0 > (0L / ((long) (v11 ^ M.i0))));
            } catch (NegativeArraySizeException v15) {
                System.out.println("NegativeArraySizeException 6");
            } catch (E0 v16) {
                System.out.println("E0 7");
                System.out.println(v16.getMessage());
            } catch (Throwable v17) {
                System.out.println("Throwable 8");
            }
        } catch (Throwable t) {
            System.out.println("T");
            if (t instanceof E0) System.out.println(t.getMessage());
        }
        try {
            M.oa[3] = v10;
        } catch (Throwable t) {
            System.out.println("T");
            if (t instanceof E0) System.out.println(t.getMessage());
        }
        try {
            System.out.println(M.a0.fb);
        } catch (Throwable t) {
            System.out.println("T");
            if (t instanceof E0) System.out.println(t.getMessage());
        }
        if (M.s0.equals(v10)) {
            I0 v18 = M.o0;
        } else {
        }
        try {
            M.ca[0] = (char) (M.ha[1] & M.a1.fc);
        } catch (Throwable t) {
            System.out.println("T");
            if (t instanceof E0) System.out.println(t.getMessage());
        }
        try {
            for (int v19 = 0; v19 < 3; v19++) {
                long v20 = M.l0;
            }
        } catch (Throwable t) {
            System.out.println("T");
            if (t instanceof E0) System.out.println(t.getMessage());
        }
        try {
            System.out.println(((M.i0 & M.sb.length()) >= (M.ca[3] - String.valueOf(M.l0).charAt(0))));
        } catch (Throwable t) {
            System.out.println("T");
            if (t instanceof E0) System.out.println(t.getMessage());
        }
        try {
            System.out.println(M.iia[2][3]);
        } catch (Throwable t) {
            System.out.println("T");
            if (t instanceof E0) System.out.println(t.getMessage());
        }
        try {
            M.la[3] = M.l0;
        } catch (Throwable t) {
            System.out.println("T");
            if (t instanceof E0) System.out.println(t.getMessage());
        }
        try {
            System.out.println(C.si3);
        } catch (Throwable t) {
            System.out.println("T");
            if (t instanceof E0) System.out.println(t.getMessage());
        }
        try {
            try {
                System.arraycopy(M.oa, 0, M.oa, M.i0, 2);
                v11 ^= (M.o0.f((-1)) & ((-5) | M.i0));
            } catch (E2 v21) {
                System.out.println("E2 9");
                System.out.println(v21.getMessage());
                long[] v22 = new long[3];
            } catch (ArrayIndexOutOfBoundsException v23) {
                System.out.println("ArrayIndexOutOfBoundsException 10");
            } catch (ClassCastException v24) {
                System.out.println("ClassCastException 11");
            } catch (NegativeArraySizeException v25) {
                System.out.println("NegativeArraySizeException 12");
            } catch (IllegalArgumentException v26) {
                System.out.println("IllegalArgumentException 13");
                M.sb.append((M.a0.fl < ((M.a1.wide(M.l0, 28741) + (M.l0 ^ M.l0)) | M.a1.wide(M.l0, Integer.parseInt("-2147483648")))));
            } catch (LinkageError v27) {
                System.out.println("LinkageError 14");
            } catch (Throwable v28) {
                System.out.println("Throwable 15");
                int v29 = M.ca[1];
            }
        } catch (Throwable t) {
            System.out.println("T");
            if (t instanceof E0) System.out.println(t.getMessage());
        }
        try {
            M.i0 ^= (M.ha[3] + M.o0.f(v11));
        } catch (Throwable t) {
            System.out.println("T");
            if (t instanceof E0) System.out.println(t.getMessage());
        }
        long v30 = M.l0;
        System.out.println(i0);
        System.out.println(sb.toString());
    }
}

interface I0 {
    int f(int x);
}

interface I1 extends I0 {
    int K = 77;
    String NAME = "I1";
    int g(int x, long y);
}

abstract class A implements I0 {
    int fi;
    byte fb;
    short fs;
    char fc;
    long fl;
    boolean fz;
    A next;
    static int si = 6;
    static {
        System.out.println("init A");
        int q = 1 / (M.i0 & 1);
        System.out.println(q);
    }
    A(int x) {
        fi = x;
        fl = x * 3L;
    }
    A() {
        this(4);
    }
    int m0(int x) {
        S0.x = (x * 3);
        return (M.i0 * ((x > 0) ? (-128) : M.i0));
    }
    abstract int m1(int x);
    public int f(int x) {
        return m0(x) + 1;
    }
    long wide(long y, int x) {
        return y * 31 + x;
    }
    A me() {
        return this;
    }
    String name(int x) {
        return "A";
    }
}

class B extends A {
    static int si2 = 5;
    int fi2;
    B(int x) {
        super(x + 1);
        fi2 = x;
        next = this;
    }
    int m1(int x) {
        return m0(x) - fi2;
    }
    String name(int x) {
        return "B".concat(String.valueOf(x));
    }
}

class C extends A {
    static int si3;
    static {
        System.out.println("init C");
    }
    C(int x) {
        fb = (byte) x;
    }
    int m1(int x) {
        byte[] v1 = new byte[5];
        return (S1.x * 38655);
    }
    A me() {
        return next;
    }
}

class D extends B implements I1 {
    static int sd = B.si2 + 1;
    static {
        System.out.println("init D");
        if (M.i0 % 2 == 0) M.boom();
    }
    D(int x) {
        super(x);
    }
    public int g(int x, long y) {
        return x + (int) y;
    }
    String name(int x) {
        return super.name(x).concat("D");
    }
}

final class Q implements I1 {
    private int h;
    static {
        System.out.println("init Q");
        if (M.i0 % 2 == 0) M.boom();
    }
    Q(int x) {
        h = x;
    }
    public int f(int x) {
        return h ^ x;
    }
    public int g(int x, long y) {
        return h;
    }
}

class S0 {
    static int x = 1;
    static {
        System.out.println("init S0");
        S0.x = 9;
    }
}

class S1 {
    static final String T = "tee";
    static int x = M.i0 / (M.i0 & 3);
}

class E0 extends RuntimeException {
    E0() {
        super();
    }
    E0(String s) {
        super(s);
    }
}

class E1 extends E0 {
    int extra = 3;
    E1() {
        this("one");
    }
    E1(String s) {
        super(s);
    }
}

class E2 extends E1 {
    E2() {
    }
    E2(String s) {
        super(s);
    }
    public String getMessage() {
        return "two";
    }
}
