package p06;

public class M {
    static int i0 = 6;
    static long l0 = 77081L;
    static int[] ia = {1, 2, 3, 4};
    static int[] ja = new int[5];
    static byte[] ba = {1, -1, 127, -128};
    static char[] ca = new char[4];
    static short[] ha = new short[4];
    static long[] la = new long[6];
    static A a0, a1;
    static I0 o0;
    static Object p0;
    static String s0 = "start";
    static A[] aa = new A[4];
    static A[] bb;
    static Object[] oa = new Object[4];
    static int[][] iia = new int[3][4];
    static StringBuffer sb = new StringBuffer();
    static int boom() {
        throw new E1("boom");
    }
    static int h0(int x, long y, Object p, int n) {
        if (n <= 0) return x;
        if (((((Object) p) != (Object) M.p0) ^ (x < ((true ? x : 32767) >>> M.ha[1])))) throw new UnsupportedOperationException("m");
        D.sd ^= x;
        return (M.i0 * (x % x));
    }
    static int h1(int x, long y, Object p, int n) {
        if (n <= 0) return x;
        M.oa[2] = M.p0;
        M.sb.append((char) (119));
        System.out.println((x--));
        return M.iia[3][2];
    }
    static int h2(int x, long y, Object p, int n) {
        if (n <= 0) return x;
        try {
            switch (M.i0 % 5) {
                case 0: ;
                break;
                case 2: ;
                case 100: System.out.println(x);
                default: System.out.println("d");
            }
            try {
                System.out.println(((I0) M.a0).f("12".charAt(M.i0)));
                String v1 = M.sb.toString();
                System.out.println((M.i0++));
            } catch (ArithmeticException v2) {
                System.out.println("ArithmeticException 1");
                if ((M.iia[1][1] % (((x - x) + M.i0) * M.a0.me().m0(((char) x)))) > 100) throw v2;
            } catch (ArrayIndexOutOfBoundsException v3) {
                System.out.println("ArrayIndexOutOfBoundsException 2");
            } catch (StringIndexOutOfBoundsException v4) {
                System.out.println("StringIndexOutOfBoundsException 3");
                if ((!((M.o0.f(x) >> (x | x)) <= (x & M.sb.length())))) throw new E1();
            } catch (RuntimeException v5) {
                System.out.println("RuntimeException 4");
            }
            System.out.println((char) (97 + (S0.x & 15)));
        } catch (NullPointerException v6) {
            System.out.println("NullPointerException 5");
            A v7 = ((A) (Object) p);
        } catch (E0 v8) {
            System.out.println("E0 6");
            System.out.println(v8.getMessage());
        } catch (RuntimeException v9) {
            System.out.println("RuntimeException 7");
            M.a1.fl += M.a0.fl;
        } catch (ExceptionInInitializerError v10) {
            System.out.println("ExceptionInInitializerError 8");
            if (M.s0.equals(M.p0)) {
                M.ia[2] += (int) M.sb.length();
                System.out.println((char) (97 + (((I0) M.a0).f(M.sb.length()) & 15)));
            } else {
            }
        } catch (LinkageError v11) {
            System.out.println("LinkageError 9");
            try {
                System.out.println(M.i0);
                Object v12 = M.o0;
            } catch (E1 v13) {
                System.out.println("E1 10");
                System.out.println(v13.getMessage());
            } catch (ArithmeticException v14) {
                System.out.println("ArithmeticException 11");
                System.out.println(255);
                if (S1.T.charAt(3) > 100) throw v14;
            } catch (ClassCastException v15) {
                System.out.println("ClassCastException 12");
                System.out.println((char) (97 + (M.ca[0] & 15)));
            } catch (ArrayStoreException v16) {
                System.out.println("ArrayStoreException 13");
            } catch (NumberFormatException v17) {
                System.out.println("NumberFormatException 14");
            } catch (E0 v18) {
                System.out.println("E0 15");
                System.out.println(v18.getMessage());
            }
        }
        byte[] v19 = new byte[4];
        ((A) null).fc = (char) (((A) null).m0(M.ca[0]) | (x ^ M.iia.length));
        System.out.println(new D(M.a1.m0(x)).name(C.si3));
        return M.iia[1][x];
    }
    static void set() {
        a0 = new B(3);
        a1 = new D(5);
        o0 = new Q(6);
        p0 = a1;
        aa[0] = a0;
        aa[1] = a1;
        bb = new B[4];
        oa[0] = s0;
        oa[1] = ia;
        oa[2] = a0;
    }
    public static void main(String[] args) {
        int n = 3;
        try {
            set();
        } catch (Throwable t) {
            System.out.println("set");
        }
        try {
            A.si = M.i0;
        } catch (Throwable t) {
            System.out.println("T");
            if (t instanceof E0) System.out.println(t.getMessage());
        }
        try {
            switch (31 % 5) {
                case -1: ;
                break;
                case 0: System.out.println(((7 * M.sb.length()) | M.ia[M.i0]));
                break;
                case 2: System.out.println("".substring(3, 0).length());
                case 3: M.aa[((int) (M.l0 >> M.i0))] = M.a0;
                break;
                default: System.out.println("d");
            }
        } catch (Throwable t) {
            System.out.println("T");
            if (t instanceof E0) System.out.println(t.getMessage());
        }
        try {
            System.arraycopy(M.ia, 3, M.ja, 0, ((M.i0 - M.i0) & M.i0));
        } catch (Throwable t) {
            System.out.println("T");
            if (t instanceof E0) System.out.println(t.getMessage());
        }
        try {
            System.out.println(M.a1.fl);
        } catch (Throwable t) {
            System.out.println("T");
            if (t instanceof E0) System.out.println(t.getMessage());
        }
        try {
            try {
                B.si2 += 57563;
                M.ia[1] = (int) M.i0;
            } catch (E1 v20) {
                System.out.println("E1 16");
                System.out.println(v20.getMessage());
                System.out.println((char) (97 + ((M.i0--) & 15)));
            } catch (ArithmeticException v21) {
                System.out.println("ArithmeticException 17");
                I0 v22 = ((I1) (Object) M.p0);
            } catch (IndexOutOfBoundsException v23) {
                System.out.println("IndexOutOfBoundsException 18");
            } catch (ClassCastException v24) {
                System.out.println("ClassCastException 19");
            }
        } catch (Throwable t) {
            System.out.println("T");
            if (t instanceof E0) System.out.println(t.getMessage());
        }
        try {
            M.sb.append((M.i0 <= M.ca[2]));
        } catch (Throwable t) {
            System.out.println("T");
            if (t instanceof E0) System.out.println(t.getMessage());
        }
        try {
            M.sb.append((((Object) M.p0) == (Object) M.p0));
        } catch (Throwable t) {
            System.out.println("T");
            if (t instanceof E0) System.out.println(t.getMessage());
        }
        try {
            System.arraycopy(M.la, 0, M.la, 1, 2);
        } catch (Throwable t) {
            System.out.println("T");
            if (t instanceof E0) System.out.println(t.getMessage());
        }
        int[] v25 = new int[3];
        try {
            for (int v26 = 0; v26 < 3; v26++) {
                System.out.println(((!(!(127 != 1))) ? ((int) ((long) (true ? M.i0 : M.i0))) : M.ca[0]));
                System.out.println(((long) M.i0));
            }
        } catch (Throwable t) {
            System.out.println("T");
            if (t instanceof E0) System.out.println(t.getMessage());
        }
        try {
            System.out.println(64L);
        } catch (Throwable t) {
            System.out.println("T");
            if (t instanceof E0) System.out.println(t.getMessage());
        }
        A v27 = new B(M.s0.length());
        try {
            System.out.println((((Object) M.aa) instanceof B));
        } catch (Throwable t) {
            System.out.println("T");
            if (t instanceof E0) System.out.println(t.getMessage());
        }
        try {
            A.si = (128 + ((M.i0 <= M.ia.length) ? ((M.l0 < 2L) ? ((int) 63L) : M.i0) : M.sb.length()));
        } catch (Throwable t) {
            System.out.println("T");
            if (t instanceof E0) System.out.println(t.getMessage());
        }
        try {
            M.aa[2] = M.a0;
        } catch (Throwable t) {
            System.out.println("T");
            if (t instanceof E0) System.out.println(t.getMessage());
        }
        int v28 = M.oa.length;
        int v29 = (((int) (M.l0 * M.l0)) * ((int) ((M.l0 * 4294967296L) * (M.l0 | M.l0))));
        String v30 = M.s0;
        System.out.println(i0);
        System.out.println(sb.toString());
    }
}

interface I0 {
    int f(int x);
}

interface I1 extends I0 {
    int K = 77;
    String NAME = "I1";
    int g(int x, long y);
}

abstract class A implements I0 {
    int fi;
    byte fb;
    short fs;
    char fc;
    long fl;
    boolean fz;
    A next;
    static int si = 4;
    static {
        System.out.println("init A");
        if (M.i0 % 2 == 0) M.boom();
    }
    A(int x) {
        fi = x;
        fl = x * 3L;
    }
    A() {
        this(4);
    }
    int m0(int x) {
        new C(x).fl += M.la[((3 + x) << (M.i0 % 7))];
        return String.valueOf(M.i0).length();
    }
    abstract int m1(int x);
    public int f(int x) {
        return m0(x) + 1;
    }
    long wide(long y, int x) {
        return y * 31 + x;
    }
    A me() {
        return this;
    }
    String name(int x) {
        return "A";
    }
}

class B extends A {
    static int si2 = 5;
    static {
        System.out.println("init B");
        System.out.println(S0.x);
    }
    int fi2;
    B(int x) {
        super(x + 1);
        fi2 = x;
        next = this;
    }
    int m1(int x) {
        return m0(x) - fi2;
    }
    String name(int x) {
        return "B".concat(String.valueOf(x));
    }
}

class C extends A {
    static int si3;
    C(int x) {
        super(x);
        fb = (byte) x;
    }
    int m1(int x) {
        System.out.println(((M.i0 * M.a0.m1(((int) M.l0))) / 7));
        return x;
    }
    A me() {
        return next;
    }
}

class D extends B implements I1 {
    static int sd = S1.x;
    static {
        System.out.println("init D");
        if (M.i0 % 2 == 0) M.boom();
    }
    D(int x) {
        super(x);
    }
    public int g(int x, long y) {
        return x + (int) y;
    }
    int m1(int x) {
        return super.m1(x) ^ 21;
    }
    String name(int x) {
        return super.name(x).concat("D");
    }
}

final class Q implements I1 {
    private int h;
    Q(int x) {
        h = x;
    }
    public int f(int x) {
        return h ^ x;
    }
    public int g(int x, long y) {
        return h;
    }
}

class S0 {
    static int x = 1;
}

class S1 {
    static final String T = "tee";
    static int x = S0.x + 2;
}

class E0 extends RuntimeException {
    E0() {
        super();
    }
    E0(String s) {
        super(s);
    }
}

class E1 extends E0 {
    int extra = 3;
    E1() {
        this("one");
    }
    E1(String s) {
        super(s);
    }
}

class E2 extends E1 {
    E2() {
    }
    E2(String s) {
        super(s);
    }
    public String getMessage() {
        return "two";
    }
}
