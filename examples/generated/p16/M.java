package p16;

public class M {
    static int i0 = 1;
    static long l0 = 34957L;
    static int[] ia = {1, 2, 3, 4};
    static int[] ja = new int[5];
    static byte[] ba = {1, -1, 127, -128};
    static char[] ca = new char[4];
    static short[] ha = new short[4];
    static long[] la = new long[6];
    static A a0, a1;
    static I0 o0;
    static Object p0;
    static String s0 = "start";
    static A[] aa = new A[4];
    static A[] bb;
    static Object[] oa = new Object[4];
    static int[][] iia = new int[3][4];
    static StringBuffer sb = new StringBuffer();
    static int boom() {
        throw new E1("boom");
    }
    static int h0(int x, long y, Object p, int n) {
        if (n <= 0) return x;
        try {
            try {
                M.oa[M.i0] = "a longer text";
                new C(((x++) >>> ((byte) 3))).fz = ((M.ja[3] ^ M.sb.length()) == x);
                System.out.println((M.sb.toString().charAt(((-1) + x)) | I1.K));
            } catch (StringIndexOutOfBoundsException v2) {
                System.out.println("StringIndexOutOfBoundsException 1");
                System.out.println(M.a1.m0(h2(M.ba[1], y, M.p0, n - 1)));
            } catch (RuntimeException v3) {
                System.out.println("RuntimeException 2");
                System.out.println(M.ja[3]);
            } catch (ExceptionInInitializerError v4) {
                System.out.println("ExceptionInInitializerError 3");
                System.out.println(((long) M.ba[1]));
            }
            System.out.println(32767);
        } catch (E2 v5) {
            System.out.println("E2 4");
            System.out.println(v5.getMessage());
        } catch (NegativeArraySizeException v6) {
            System.out.println("NegativeArraySizeException 5");
        } catch (NumberFormatException v7) {
            System.out.println("NumberFormatException 6");
            try {
                C.si3 = M.iia[0][2];
                System.out.println((char) (97 + ((M.ca[3] / M.i0) & 15)));
                M.i0 *= (M.sb.length() >> ((!(33 != x)) ? ((char) (x | 255)) : S0.x));
            } catch (E2 v8) {
                System.out.println("E2 7");
                System.out.println(v8.getMessage());
            } catch (NoClassDefFoundError v9) {
                System.out.println("NoClassDefFoundError 8");
                System.out.println((char) (97 + ((-1) & 15)));
            } catch (Throwable v10) {
                System.out.println("Throwable 9");
                int[] v11 = new int[2];
            }
        } catch (IllegalArgumentException v12) {
            System.out.println("IllegalArgumentException 10");
        } catch (E0 v13) {
            System.out.println("E0 11");
            System.out.println(v13.getMessage());
            System.arraycopy(M.ia, 2, M.ja, 3, 2);
        }
        M.a1.fc = (char) (M.ha[2] % ((((M.i0 > 0) || false) ? (x * M.i0) : I1.NAME.charAt(1)) >> M.o0.f(((int) y))));
        M.sb.append(M.i0);
        return M.a1.fb;
    }
    static int h1(int x, long y, Object p, int n) {
        if (n <= 0) return x;
        Object[] v14 = new String[3];
        A[] v15 = new B[3];
        return Integer.parseInt(((String) (Object) M.p0));
    }
    static int h2(int x, long y, Object p, int n) {
        if (n <= 0) return x;
        System.arraycopy(M.bb, 2, M.bb, 0, (x | 255));
        System.arraycopy(M.la, 3, M.bb, 0, 3);
        return M.ia[0];
    }
    static void set() {
        a0 = new B(3);
        a1 = new D(5);
        o0 = new Q(6);
        p0 = a1;
        aa[0] = a0;
        aa[1] = a1;
        bb = new B[4];
        oa[0] = s0;
        oa[1] = ia;
        oa[2] = a0;
    }
    public static void main(String[] args) {
        int n = 3;
        try {
            set();
        } catch (Throwable t) {
            System.out.println("set");
        }
        switch (M.iia[2][1] & 7) {
            case 1: System.out.println(((int) (((1L / M.l0) + M.la[0]) / 3L)));
            break;
            case 5: ;
            break;
            default: System.out.println("d");
        }
        try {
            M.bb[3] = ((A) (Object) M.p0);
        } catch (Throwable t) {
            System.out.println("T");
            if (t instanceof E0) System.out.println(t.getMessage());
        }
        try {
            System.out.println(M.o0.f(M.ja[((char) M.i0)]));
        } catch (Throwable t) {
            System.out.println("T");
            if (t instanceof E0) System.out.println(t.getMessage());
        }
        long v16 = 255L;
        try {
            M.aa[2] = M.a1;
        } catch (Throwable t) {
            System.out.println("T");
            if (t instanceof E0) System.out.println(t.getMessage());
        }
        M.bb[0] = M.a0;
        try {
            System.out.println((!(((M.i0++) | M.i0) >= M.i0)));
        } catch (Throwable t) {
            System.out.println("T");
            if (t instanceof E0) System.out.println(t.getMessage());
        }
        try {
            System.arraycopy(M.oa, 1, M.oa, 2, M.iia[M.i0][1]);
        } catch (Throwable t) {
            System.out.println("T");
            if (t instanceof E0) System.out.println(t.getMessage());
        }
        try {
            try {
                try {
                    M.ha[2] = (short) ((((A) null).fc - M.ca[1]) * M.iia[86056][3]);
                    System.out.println(M.i0);
                    M.oa[0] = M.p0;
                } catch (E2 v17) {
                    System.out.println("E2 12");
                    System.out.println(v17.getMessage());
                    long v18 = (((long) M.s0.charAt(2)) & M.l0);
                } catch (E1 v19) {
                    System.out.println("E1 13");
                    System.out.println(v19.getMessage());
                    if (h0((M.ha[0] - (-128)), (M.a0.wide(M.l0, M.ba[0]) >> M.sb.length()), M.o0, n - 1) > 100) throw v19;
                } catch (ArrayStoreException v20) {
                    System.out.println("ArrayStoreException 14");
                    long v21 = ((long) ((A) (Object) M.p0).m0(h1(M.ca[M.i0], M.la[0], M.p0, n - 1)));
                } catch (E0 v22) {
                    System.out.println("E0 15");
                    System.out.println(v22.getMessage());
                } catch (Throwable v23) {
                    System.out.println("Throwable 16");
                    try {
                        System.out.println((M.ia.length | (M.aa.length * M.aa[M.i0].m0((M.i0 & M.i0)))));
                    } catch (E1 v24) {
                        System.out.println("E1 17");
                        System.out.println(v24.getMessage());
                        if (M.ha[2] > 100) throw v24;
                    } catch (NumberFormatException v25) {
                        System.out.println("NumberFormatException 18");
                        M.a0.next = M.a0;
                    } catch (RuntimeException v26) {
                        System.out.println("RuntimeException 19");
                        System.out.println(M.i0);
                        if (M.ha[2] > 100) throw v26;
                    } catch (NoClassDefFoundError v27) {
                        System.out.println("NoClassDefFoundError 20");
                    }
                }
                switch (M.ca[0] ) {
                    case 1: ;
                    case 3: ;
                    case 4: ;
                    default: System.out.println("d");
                }
                String v28 = String.valueOf(9223372036854775807L);
            } catch (RuntimeException v29) {
                System.out.println("RuntimeException 21");
                if ((M.ha[0] - M.iia[1][0]) > 100) throw v29;
            } catch (ExceptionInInitializerError v30) {
                System.out.println("ExceptionInInitializerError 22");
                if (M.ca[2] > 100) throw v30;
            }
        } catch (Throwable t) {
            System.out.println("T");
            if (t instanceof E0) System.out.println(t.getMessage());
        }
        if ("a longer text".equals(M.p0)) throw new E2("m");
        Object v31 = M.p0;
        M.la[Integer.parseInt(M.s0.substring(1, 0))] = M.l0;
        int v32 = M.i0;
        try {
            switch ((((M.s0.length() | M.a0.fs) ^ M.iia.length) ^ M.ha[3]) % 5) {
                case 4: ;
                case 100: System.out.println(M.a1.name(v32));
                break;
                case 65536: M.oa[M.ba[3]] = v31;
                break;
                default: System.out.println("d");
            }
        } catch (Throwable t) {
            System.out.println("T");
            if (t instanceof E0) System.out.println(t.getMessage());
        }
        try {
            try {
                System.arraycopy(M.oa, 3, M.ja, M.sb.length(), 1);
                switch (M.iia[3][2] & 7) {
                    case 0: S0.x = M.s0.charAt(1);
                    case 1: M.i0 += M.iia[1][3];
                    case 2: System.out.println(v32);
                    default: System.out.println("d");
                }
            } catch (ArithmeticException v33) {
                System.out.println("ArithmeticException 23");
            } catch (ArrayIndexOutOfBoundsException v34) {
                System.out.println("ArrayIndexOutOfBoundsException 24");
            } catch (NumberFormatException v35) {
                System.out.println("NumberFormatException 25");
            }
        } catch (Throwable t) {
            System.out.println("T");
            if (t instanceof E0) System.out.println(t.getMessage());
        }
        M.a0.fz = (((v16 | 10L) << v32) > M.l0);
        try {
            M.la[1] = M.l0;
        } catch (Throwable t) {
            System.out.println("T");
            if (t instanceof E0) System.out.println(t.getMessage());
        }
        try {
            for (int v36 = 0; v36 < 4; v36++) {
                System.out.println((((!(true ^ false)) ? ((int) M.la[1]) : Integer.parseInt("")) != M.o0.f(v32)));
                M.ca[2] = (char) (Integer.parseInt("2147483647") - (((64L > M.l0) ^ (((Object) M.p0) instanceof I0)) ? M.a1.fc : (v32--)));
            }
        } catch (Throwable t) {
            System.out.println("T");
            if (t instanceof E0) System.out.println(t.getMessage());
        }
        try {
            System.out.println(M.sb.length());
        } catch (Throwable t) {
            System.out.println("T");
            if (t instanceof E0) System.out.println(t.getMessage());
        }
        try {
            for (int v37 = 0; v37 < 1; v37++) {
                M.ba[M.ha[v32]] = (byte) M.i0;
            }
        } catch (Throwable t) {
            System.out.println("T");
            if (t instanceof E0) System.out.println(t.getMessage());
        }
        System.out.println(i0);
        System.out.println(sb.toString());
    }
}

interface I0 {
    int f(int x);
}

interface I1 extends I0 {
    int K = 77;
    String NAME = "I1";
    int g(int x, long y);
}

abstract class A implements I0 {
    int fi;
    byte fb;
    short fs;
    char fc;
    long fl;
    boolean fz;
    A next;
    static int si = 3;
    A(int x) {
        fi = x;
        fl = x * 3L;
    }
    A() {
        this(4);
    }
    int m0(int x) {
        if ((((Object) M.p0) != (Object) M.p0)) {
            System.out.println(M.a1.fl);
            B.si2 += M.i0;
        } else {
            Object v1 = M.ja;
            System.out.println(M.a0.fl);
        }
        return x;
    }
    abstract int m1(int x);
    public int f(int x) {
        return m0(x) + 1;
    }
    long wide(long y, int x) {
        return y * 31 + x;
    }
    A me() {
        return this;
    }
    String name(int x) {
        return "A";
    }
}

class B extends A {
    static int si2 = 5;
    int fi2;
    B(int x) {
        super(x + 1);
        fi2 = x;
        next = this;
    }
    int m1(int x) {
        return m0(x) - fi2;
    }
    int m0(int x) {
        return super.m0(x) * 2;
    }
    String name(int x) {
        return "B".concat(String.valueOf(x));
    }
}

class C extends A {
    static int si3;
    static {
        System.out.println("init C");
        if (M.i0 % 2 == 0) M.boom();
    }
    C(int x) {
        super(x);
        fb = (byte) x;
    }
    int m1(int x) {
        M.ba[2] = (byte) ((char) M.bb.length);
        return M.aa.length;
    }
    long wide(long y, int x) {
        return super.wide(x, (int) y);
    }
}

class D extends B implements I1 {
    static int sd = S1.x;
    static {
        System.out.println("init D");
        S0.x = 9;
    }
    D(int x) {
        super(x);
    }
    public int g(int x, long y) {
        return x + (int) y;
    }
    int m1(int x) {
        return super.m1(x) ^ 21;
    }
    String name(int x) {
        return super.name(x).concat("D");
    }
}

final class Q implements I1 {
    private int h;
    Q(int x) {
        h = x;
    }
    public int f(int x) {
        return h ^ x;
    }
    public int g(int x, long y) {
        return h;
    }
}

class S0 {
    static int x = M.i0;
}

class S1 {
    static final String T = "tee";
    static int x = 2;
    static {
        System.out.println("init S1");
        M.i0 += 3;
    }
}

class E0 extends RuntimeException {
    E0() {
        super();
    }
    E0(String s) {
        super(s);
    }
}

class E1 extends E0 {
    int extra = 3;
    E1() {
        this("one");
    }
    E1(String s) {
        super(s);
    }
}

class E2 extends E1 {
    E2() {
    }
    E2(String s) {
        super(s);
    }
    public String getMessage() {
        return "two";
    }
}
