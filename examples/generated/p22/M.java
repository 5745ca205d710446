package p22;

public class M {
    static int i0 = 8;
    static long l0 = 24823L;
    static int[] ia = {1, 2, 3, 4};
    static int[] ja = new int[5];
    static byte[] ba = {1, -1, 127, -128};
    static char[] ca = new char[4];
    static short[] ha = new short[4];
    static long[] la = new long[6];
    static A a0, a1;
    static I0 o0;
    static Object p0;
    static String s0 = "start";
    static A[] aa = new A[4];
    static A[] bb;
    static Object[] oa = new Object[4];
    static int[][] iia = new int[3][4];
    static StringBuffer sb = new StringBuffer();
    static int boom() {
        throw new E1("boom");
    }
    static int h0(int x, long y, Object p, int n) {
        if (n <= 0) return x;
        try {
            int v1 = M.ja[(Integer.parseInt(M.s0) >> M.ca[1])];
            v1 += (M.sb.length() | x);
            if ((M.o0.f((Integer.parseInt("a longer text") | Integer.parseInt(M.s0))) >= v1)) {
                System.out.println(v1);
                System.out.println(M.oa.length);
            } else {
                System.out.println(M.iia[3][3]);
                A.si = v1;
            }
        } catch (ArithmeticException v2) {
            System.out.println("ArithmeticException 1");
            System.out.println((char) (97 + (M.ia[2] & 15)));
        } catch (StringIndexOutOfBoundsException v3) {
            System.out.println("StringIndexOutOfBoundsException 2");
        } catch (ArrayStoreException v4) {
            System.out.println("ArrayStoreException 3");
        } catch (E0 v5) {
            System.out.println("E0 4");
            System.out.println(v5.getMessage());
            System.arraycopy(M.la, 2, M.la, 2, 1);
        } catch (RuntimeException v6) {
            System.out.println("RuntimeException 5");
            I0 v7 = ((I0) null);
        } catch (Throwable v8) {
            System.out.println("Throwable 6");
        }
        D.sd ^= M.i0;
        return M.ia[3];
    }
    static int h1(int x, long y, Object p, int n) {
        if (n <= 0) return x;
        if ((((Object) M.oa[0]) != (Object) M.a1)) throw new E1(M.s0);
        long v9 = M.l0;
        System.out.println(M.ba[0]);
        return (x--);
    }
    static int h2(int x, long y, Object p, int n) {
        if (n <= 0) return x;
        M.i0 -= M.o0.f((M.i0 * (B.si2 >>> M.ja[3])));
        try {
            System.out.println(M.iia[1][2]);
            M.bb[0] = M.a0;
            System.out.println(M.s0);
        } catch (NegativeArraySizeException v10) {
            System.out.println("NegativeArraySizeException 7");
        } catch (NumberFormatException v11) {
            System.out.println("NumberFormatException 8");
        } catch (IllegalArgumentException v12) {
            System.out.println("IllegalArgumentException 9");
            System.out.println((!(((M.i0 <= M.i0) || M.s0.equals(M.p0)) && ((x << x) <= M.ia[1]))));
        } catch (ExceptionInInitializerError v13) {
            System.out.println("ExceptionInInitializerError 10");
        }
        return x;
    }
    static void set() {
        a0 = new B(3);
        a1 = new D(5);
        o0 = new Q(6);
        p0 = a1;
        aa[0] = a0;
        aa[1] = a1;
        bb = new B[4];
        oa[0] = s0;
        oa[1] = ia;
        oa[2] = a0;
    }
    public static void main(String[] args) {
        int n = 3;
        try {
            set();
        } catch (Throwable t) {
            System.out.println("set");
        }
        try {
            System.out.println((char) (97 + (((short) (Integer.parseInt("2147483647") - ((M.i0 << M.i0) * M.s0.charAt(0)))) & 15)));
        } catch (Throwable t) {
            System.out.println("T");
            if (t instanceof E0) System.out.println(t.getMessage());
        }
        try {
            try {
                String v14 = M.s0;
            } catch (ArrayIndexOutOfBoundsException v15) {
                System.out.println("ArrayIndexOutOfBoundsException 11");
            } catch (IndexOutOfBoundsException v16) {
                System.out.println("IndexOutOfBoundsException 12");
                switch (((M.s0.equals(M.p0) || (!(2147483647 <= M.i0))) ? M.aa.length : 0) ) {
                    case 1: ;
                    case 2: System.out.println((char) (97 + (((int) (((long) M.i0) - ((long) M.s0.length()))) & 15)));
                    break;
                    case 5: System.out.println((char) (97 + (D.sd & 15)));
                    default: System.out.println("d");
                }
            } catch (NullPointerException v17) {
                System.out.println("NullPointerException 13");
            } catch (ClassCastException v18) {
                System.out.println("ClassCastException 14");
            }
        } catch (Throwable t) {
            System.out.println("T");
            if (t instanceof E0) System.out.println(t.getMessage());
        }
        try {
            System.arraycopy(M.bb, 3, M.aa, (M.iia[3][0] + h2(M.i0, M.l0, M.p0, n - 1)), ((M.i0++) + (M.i0 % 10)));
        } catch (Throwable t) {
            System.out.println("T");
            if (t instanceof E0) System.out.println(t.getMessage());
        }
        try {
            if (("ab".length() <= ((int) 255L))) {
                System.arraycopy(M.la, 0, M.la, 2, ((int) M.a0.wide(M.l0, 32767)));
            } else {
                for (int v19 = 0; v19 < 4; v19++) {
                    if ((((Object) M.p0) == (Object) M.p0)) {
                        long v20 = M.l0;
                    } else {
                        System.out.println(M.ba[1]);
                    }
                    M.oa[M.ha[3]] = M.a1;
                }
                M.sb.append(M.a1.m0(((short) M.ha[2])));
            }
        } catch (Throwable t) {
            System.out.println("T");
            if (t instanceof E0) System.out.println(t.getMessage());
        }
        try {
            M.oa[3] = M.bb;
        } catch (Throwable t) {
            System.out.println("T");
            if (t instanceof E0) System.out.println(t.getMessage());
        }
        try {
            switch (((((false && true) ? M.iia.length : M.i0) >> 65535) >>> ((M.a0.fl > M.la[(-128)]) ? M.i0 : M.i0)) & 7) {
                case 4: ;
                case 5: M.aa[(M.iia[0][0] & 0)] = ((B) M.a0.next);
                default: System.out.println("d");
            }
        } catch (Throwable t) {
            System.out.println("T");
            if (t instanceof E0) System.out.println(t.getMessage());
        }
        try {
            try {
                int v21 = Integer.parseInt("2147483647");
            } catch (ArrayIndexOutOfBoundsException v22) {
                System.out.println("ArrayIndexOutOfBoundsException 15");
                System.out.println(M.ba[3]);
            } catch (E0 v23) {
                System.out.println("E0 16");
                System.out.println(v23.getMessage());
            } catch (NoClassDefFoundError v24) {
                System.out.println("NoClassDefFoundError 17");
            }
        } catch (Throwable t) {
            System.out.println("T");
            if (t instanceof E0) System.out.println(t.getMessage());
        }
        try {
            System.arraycopy(M.ba, 3, M.bb, 3, 2);
        } catch (Throwable t) {
            System.out.println("T");
            if (t instanceof E0) System.out.println(t.getMessage());
        }
        try {
            System.out.println(M.ca[1]);
        } catch (Throwable t) {
            System.out.println("T");
            if (t instanceof E0) System.out.println(t.getMessage());
        }
        try {
            switch (M.a0.name(M.ha[M.i0]).length() % 5) {
                case 1: M.sb.append((M.l0 & M.a0.wide((M.a1.wide(10L, 65535) + (M.l0 * M.l0)), M.i0)));
                case 2: System.out.println(255);
                default: System.out.println("d");
            }
        } catch (Throwable t) {
            System.out.println("T");
            if (t instanceof E0) System.out.println(t.getMessage());
        }
        long v25 = M.l0;
        try {
            System.out.println(M.s0.charAt(2));
        } catch (Throwable t) {
            System.out.println("T");
            if (t instanceof E0) System.out.println(t.getMessage());
        }
        try {
            System.out.println(((int) new C(127).wide(v25, String.valueOf(v25).charAt(1))));
        } catch (Throwable t) {
            System.out.println("T");
            if (t instanceof E0) System.out.println(t.getMessage());
        }
        try {
            System.out.println((M.i0 == M.a0.fb));
        } catch (Throwable t) {
            System.out.println("T");
            if (t instanceof E0) System.out.println(t.getMessage());
        }
        try {
            M.oa[1] = M.p0;
        } catch (Throwable t) {
            System.out.println("T");
            if (t instanceof E0) System.out.println(t.getMessage());
        }
        A v26 = new D((3 / 1));
        try {
            System.out.println(v25);
        } catch (Throwable t) {
            System.out.println("T");
            if (t instanceof E0) System.out.println(t.getMessage());
        }
        System.out.println(i0);
        System.out.println(sb.toString());
    }
}

interface I0 {
    int f(int x);
}

interface I1 extends I0 {
    int K = 77;
    String NAME = "I1";
    int g(int x, long y);
}

abstract class A implements I0 {
    int fi;
    byte fb;
    short fs;
    char fc;
    long fl;
    boolean fz;
    A next;
    static int si = 6;
    A(int x) {
        fi = x;
        fl = x * 3L;
    }
    A() {
        this(4);
    }
    int m0(int x) {
        if ((D.sd == (x | M.la.length))) {
            System.out.println(((((long) M.i0) < ((M.l0 + M.l0) / M.l0)) ? ((byte) (M.s0.charAt(0) / 7)) : (M.a1.fb ^ M.ja[1])));
            System.out.println(M.i0);
        } else {
            x >>= ((int) ((M.a1.fl >>> x) % M.a0.wide(M.la[x], ((short) M.i0))));
        }
        return M.ha[1];
    }
    abstract int m1(int x);
    public int f(int x) {
        return m0(x) + 1;
    }
    long wide(long y, int x) {
        return y * 31 + x;
    }
    A me() {
        return this;
    }
    String name(int x) {
        return "A";
    }
}

class B extends A {
    static int si2 = 5;
    int fi2;
    B(int x) {
        super(x + 1);
        fi2 = x;
        next = this;
    }
    int m1(int x) {
        return m0(x) - fi2;
    }
    public int f(int x) {
        return x;
    }
    String name(int x) {
        return "B".concat(String.valueOf(x));
    }
}

class C extends A {
    static int si3;
    static {
        System.out.println("init C");
        System.out.println(S0.x);
    }
    C(int x) {
        fb = (byte) x;
    }
    int m1(int x) {
        System.out.println(M.s0.equals(M.oa));
        return M.sb.length();
    }
}

class D extends B implements I1 {
    static int sd = B.si2 + 1;
    static {
        System.out.println("init D");
        if (M.i0 % 2 == 0) M.boom();
    }
    D(int x) {
        super(x);
    }
    public int g(int x, long y) {
        return x + (int) y;
    }
    int m1(int x) {
        return super.m1(x) ^ 21;
    }
    String name(int x) {
        return super.name(x).concat("D");
    }
}

final class Q implements I1 {
    private int h;
    static {
        System.out.println("init Q");
        System.out.println(S0.x);
    }
    Q(int x) {
        h = x;
    }
    public int f(int x) {
        return h ^ x;
    }
    public int g(int x, long y) {
        return h;
    }
}

class S0 {
    static int x = 1;
    static {
        System.out.println("init S0");
        M.i0 += 3;
    }
}

class S1 {
    static final String T = "tee";
    static int x = M.i0 / (M.i0 & 3);
}

class E0 extends RuntimeException {
    E0() {
        super();
    }
    E0(String s) {
        super(s);
    }
}

class E1 extends E0 {
    int extra = 3;
    E1() {
        this("one");
    }
    E1(String s) {
        super(s);
    }
}

class E2 extends E1 {
    E2() {
    }
    E2(String s) {
        super(s);
    }
    public String getMessage() {
        return "two";
    }
}
