package p20;

public class M {
    static int i0 = 8;
    static long l0 = 33742L;
    static int[] ia = {1, 2, 3, 4};
    static int[] ja = new int[5];
    static byte[] ba = {1, -1, 127, -128};
    static char[] ca = new char[4];
    static short[] ha = new short[4];
    static long[] la = new long[6];
    static A a0, a1;
    static I0 o0;
    static Object p0;
    static String s0 = "start";
    static A[] aa = new A[4];
    static A[] bb;
    static Object[] oa = new Object[4];
    static int[][] iia = new int[3][4];
    static StringBuffer sb = new StringBuffer();
    static int boom() {
        throw new E1("boom");
    }
    static int h0(int x, long y, Object p, int n) {
        if (n <= 0) return x;
        D.sd ^= (M.s0.length() * M.o0.f(((int) 4294967296L)));
        x -= Integer.parseInt(M.s0);
        System.out.println(M.i0);
        return 5;
    }
    static int h1(int x, long y, Object p, int n) {
        if (n <= 0) return x;
        x -= 33;
        long v2 = ((M.a1.wide(M.a1.fl, (M.i0 & M.i0)) << M.ja[2]) | 63L);
        System.out.println(M.iia[3][1]);
        System.out.println((char) (97 + (h0(x, ((((A) null).wide(y, M.i0) ^ v2) >>> M.ba[3]), M.p0, n - 1) & 15)));
        return M.iia[3][0];
    }
    static int h2(int x, long y, Object p, int n) {
        if (n <= 0) return x;
        M.aa[2] = ((A) null);
        System.out.println((M.i0 == M.ia[1]));
        return M.ja[1];
    }
    static void set() {
        a0 = new B(3);
        a1 = new D(5);
        o0 = new Q(6);
        p0 = a1;
        aa[0] = a0;
        aa[1] = a1;
        bb = new B[4];
        oa[0] = s0;
        oa[1] = ia;
        oa[2] = a0;
    }
    public static void main(String[] args) {
        int n = 3;
        try {
            set();
        } catch (Throwable t) {
            System.out.println("set");
        }
        try {
            M.ia[1] += (int) (M.a1.m1(M.i0) << M.i0);
        } catch (Throwable t) {
            System.out.println("T");
            if (t instanceof E0) System.out.println(t.getMessage());
        }
        try {
            System.arraycopy(M.la, 2, M.la, (M.a1.fb * (M.i0++)), 0);
        } catch (Throwable t) {
            System.out.println("T");
            if (t instanceof E0) System.out.println(t.getMessage());
        }
        try {
            M.i0 >>= M.i0;
        } catch (Throwable t) {
            System.out.println("T");
            if (t instanceof E0) System.out.println(t.getMessage());
        }
        try {
            M.ca[0] = (char) (M.ja[1] + M.ca[3]);
        } catch (Throwable t) {
            System.out.println("T");
            if (t instanceof E0) System.out.println(t.getMessage());
        }
        System.out.println((char) (97 + ((-1) & 15)));
        try {
            System.out.println(((M.la[0] - ((63L >> M.i0) * (M.l0 & M.l0))) & new B(M.i0).wide(M.la[M.i0], (-56778))));
        } catch (Throwable t) {
            System.out.println("T");
            if (t instanceof E0) System.out.println(t.getMessage());
        }
        System.arraycopy(M.ja, 2, M.ia, 2, 2);
        try {
            M.sb.append((char) (117));
        } catch (Throwable t) {
            System.out.println("T");
            if (t instanceof E0) System.out.println(t.getMessage());
        }
        try {
            M.a1.next = M.a1;
        } catch (Throwable t) {
            System.out.println("T");
            if (t instanceof E0) System.out.println(t.getMessage());
        }
        try {
            M.aa[new Q(M.i0).f((M.i0 / 7))] = M.a0;
        } catch (Throwable t) {
            System.out.println("T");
            if (t instanceof E0) System.out.println(t.getMessage());
        }
        try {
            System.out.println(M.a1.fl);
        } catch (Throwable t) {
            System.out.println("T");
            if (t instanceof E0) System.out.println(t.getMessage());
        }
        try {
            try {
                try {
                    System.out.println((char) (97 + (M.a0.fi & 15)));
                } catch (ArithmeticException v3) {
                    System.out.println("ArithmeticException 1");
                } catch (ClassCastException v4) {
                    System.out.println("ClassCastException 2");
                } catch (ArrayStoreException v5) {
                    System.out.println("ArrayStoreException 3");
                } catch (NoClassDefFoundError v6) {
                    System.out.println("NoClassDefFoundError 4");
                    if (M.sb.length() > 100) throw v6;
                } catch (ExceptionInInitializerError v7) {
                    System.out.println("ExceptionInInitializerError 5");
                }
                int[] v8 = new int[(M.ha[3] ^ (-1))];
                M.aa[2] = M.a1;
            } catch (ArrayIndexOutOfBoundsException v9) {
                System.out.println("ArrayIndexOutOfBoundsException 6");
                M.aa[1] = ((B) ((A) (Object) M.p0));
            } catch (IndexOutOfBoundsException v10) {
                System.out.println("IndexOutOfBoundsException 7");
                A.si = Integer.parseInt("-");
            } catch (NullPointerException v11) {
                System.out.println("NullPointerException 8");
            } catch (ClassCastException v12) {
                System.out.println("ClassCastException 9");
                M.oa[1] = M.p0;
            } catch (NegativeArraySizeException v13) {
                System.out.println("NegativeArraySizeException 10");
                M.a0.fb = (byte) ((int) new B((M.i0 ^ M.i0)).fl);
            } catch (NoClassDefFoundError v14) {
                System.out.println("NoClassDefFoundError 11");
                Object[] v15 = new int[h1((M.i0 >>> M.i0), (9223372036854775807L | M.l0), M.p0, n - 1)][];
            } catch (LinkageError v16) {
                System.out.println("LinkageError 12");
                if (M.i0 > 100) throw v16;
            }
        } catch (Throwable t) {
            System.out.println("T");
            if (t instanceof E0) System.out.println(t.getMessage());
        }
        try {
            switch (M.s0.length() ) {
                case 0: long v17 = 255L;
                break;
                case 3: System.out.println(M.l0);
                break;
                case 4: ;
                break;
                default: System.out.println("d");
            }
        } catch (Throwable t) {
            System.out.println("T");
            if (t instanceof E0) System.out.println(t.getMessage());
        }
        try {
            M.a0.fc = (char) Integer.parseInt(" 3");
        } catch (Throwable t) {
            System.out.println("T");
            if (t instanceof E0) System.out.println(t.getMessage());
        }
        try {
            System.out.println(M.o0.f((h0((65536 * M.i0), M.l0, M.p0, n - 1) << M.i0)));
        } catch (Throwable t) {
            System.out.println("T");
            if (t instanceof E0) System.out.println(t.getMessage());
        }
        try {
            M.oa[M.bb[2].m1(M.iia[0][0])] = M.p0;
        } catch (Throwable t) {
            System.out.println("T");
            if (t instanceof E0) System.out.println(t.getMessage());
        }
        System.out.println(S0.x);
        try {
            M.aa[0] = new D(M.i0);
        } catch (Throwable t) {
            System.out.println("T");
            if (t instanceof E0) System.out.println(t.getMessage());
        }
        int v18 = ((int) (((2L >> M.i0) - 63L) - M.l0));
        try {
            M.ca[1] = (char) v18;
        } catch (Throwable t) {
            System.out.println("T");
            if (t instanceof E0) System.out.println(t.getMessage());
        }
        try {
            System.arraycopy(M.la, 2, M.la, 1, 3);
        } catch (Throwable t) {
            System.out.println("T");
            if (t instanceof E0) System.out.println(t.getMessage());
        }
        try {
            M.sb.append((M.l0 >>> v18));
        } catch (Throwable t) {
            System.out.println("T");
            if (t instanceof E0) System.out.println(t.getMessage());
        }
        System.out.println(i0);
        System.out.println(sb.toString());
    }
}

interface I0 {
    int f(int x);
}

interface I1 extends I0 {
    int K = 77;
    String NAME = "I1";
    int g(int x, long y);
}

abstract class A implements I0 {
    int fi;
    byte fb;
    short fs;
    char fc;
    long fl;
    boolean fz;
    A next;
    static int si = 2;
    static {
        System.out.println("init A");
        S0.x = 9;
    }
    A(int x) {
        fi = x;
        fl = x * 3L;
    }
    A() {
        this(4);
    }
    int m0(int x) {
        A.si = (Integer.parseInt("ab") ^ M.i0);
        return x;
    }
    abstract int m1(int x);
    public int f(int x) {
        return m0(x) + 1;
    }
    long wide(long y, int x) {
        return y * 31 + x;
    }
    A me() {
        return this;
    }
    String name(int x) {
        return "A";
    }
}

class B extends A {
    static int si2 = 5;
    static {
        System.out.println("init B");
        System.out.println(S0.x);
    }
    int fi2;
    B(int x) {
        super(x + 1);
        fi2 = x;
        next = this;
    }
    int m1(int x) {
        return m0(x) - fi2;
    }
    int m0(int x) {
        return super.m0(x) * 2;
    }
    String name(int x) {
        return "B".concat(String.valueOf(x));
    }
}

class C extends A {
    static int si3;
    static {
        System.out.println("init C");
        System.out.println(S0.x);
    }
    C(int x) {
        fb = (byte) x;
    }
    int m1(int x) {
        Object v1 = M.p0;
        return Integer.parseInt(String.valueOf((x > 0)));
    }
    long wide(long y, int x) {
        return super.wide(x, (int) y);
    }
}

class D extends B implements I1 {
    static int sd = 7;
    D(int x) {
        super(x);
    }
    public int g(int x, long y) {
        return x + (int) y;
    }
    String name(int x) {
        return super.name(x).concat("D");
    }
}

final class Q implements I1 {
    private int h;
    Q(int x) {
        h = x;
    }
    public int f(int x) {
        return h ^ x;
    }
    public int g(int x, long y) {
        return h;
    }
}

class S0 {
    static int x = 1;
    static {
        System.out.println("init S0");
        int q = 1 / (M.i0 & 1);
        System.out.println(q);
    }
}

class S1 {
    static final String T = "tee";
    static int x = S0.x + 2;
    static {
        System.out.println("init S1");
        if (M.i0 % 2 == 0) M.boom();
    }
}

class E0 extends RuntimeException {
    E0() {
        super();
    }
    E0(String s) {
        super(s);
    }
}

class E1 extends E0 {
    int extra = 3;
    E1() {
        this("one");
    }
    E1(String s) {
        super(s);
    }
}

class E2 extends E1 {
    E2() {
    }
    E2(String s) {
        super(s);
    }
    public String getMessage() {
        return "two";
    }
}
