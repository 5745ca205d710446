package p08;

public class M {
    static int i0 = -3;
    static long l0 = 94102L;
    static int[] ia = {1, 2, 3, 4};
    static int[] ja = new int[5];
    static byte[] ba = {1, -1, 127, -128};
    static char[] ca = new char[4];
    static short[] ha = new short[4];
    static long[] la = new long[6];
    static A a0, a1;
    static I0 o0;
    static Object p0;
    static String s0 = "start";
    static A[] aa = new A[4];
    static A[] bb;
    static Object[] oa = new Object[4];
    static int[][] iia = new int[3][4];
    static StringBuffer sb = new StringBuffer();
    static int boom() {
        throw new E1("boom");
    }
    static int h0(int x, long y, Object p, int n) {
        if (n <= 0) return x;
        String v10 = M.s0;
        Object v11 = ((Object) null);
        return (h2(M.i0, 1234567890123L, p, n - 1) % 1);
    }
    static int h1(int x, long y, Object p, int n) {
        if (n <= 0) return x;
        System.arraycopy(M.oa, 0, M.oa, 0, 3);
        M.bb[2] = new D((h1(x, 63L, M.p0, n - 1) | M.s0.length()));
        System.arraycopy(M.ia, 0, M.ia, 3, 1);
        return ((byte) M.a1.m1(2));
    }
    static int h2(int x, long y, Object p, int n) {
        if (n <= 0) return x;
        System.out.println(M.i0);
        x -= M.o0.f(Integer.parseInt("12"));
        return M.ca[x];
    }
    static void set() {
        a0 = new B(3);
        a1 = new D(5);
        o0 = new Q(6);
        p0 = a1;
        aa[0] = a0;
        aa[1] = a1;
        bb = new B[4];
        oa[0] = s0;
        oa[1] = ia;
        oa[2] = a0;
    }
    public static void main(String[] args) {
        int n = 3;
        try {
            set();
        } catch (Throwable t) {
            System.out.println("set");
        }
        for (int v12 = 0; v12 < 4; v12++) {
            System.out.println(((String) null));
        }
        try {
            M.ba[0] = (byte) ((M.ha[1] | new Q(M.i0).f(2)) / 10);
            System.out.println(M.i0);
        } catch (E1 v13) {
            System.out.println("E1 8");
            System.out.println(v13.getMessage());
            for (int v14 = 0; v14 < 1; v14++) {
                System.out.println(Integer.parseInt(String.valueOf(((0L % M.l0) > M.l0))));
            }
            if ((M.i0 + M.ca[M.ia.length]) > 100) throw v13;
        } catch (StringIndexOutOfBoundsException v15) {
            System.out.println("StringIndexOutOfBoundsException 9");
            Object[] v16 = new Object[5];
        } catch (ArrayStoreException v17) {
            System.out.println("ArrayStoreException 10");
        } catch (IllegalArgumentException v18) {
            System.out.println("IllegalArgumentException 11");
        } catch (ExceptionInInitializerError v19) {
            System.out.println("ExceptionInInitializerError 12");
            if (((((char) (M.i0 | M.i0)) & (M.sb.length() ^ (true ? M.i0 : M.i0))) <= (M.aa.length >> M.s0.length()))) {
                System.out.println((char) (97 + (M.i0 & 15)));
            } else {
                M.sb.append(M.s0);
                M.ca[M.o0.f((M.i0--))] = (char) ("".equals(M.p0) ? (M.i0 << (M.ja.length * M.ca[0])) : (M.iia[0][3] ^ (33 + M.a1.m0(M.i0))));
            }
        }
        try {
            System.out.println((((Object) M.p0) instanceof I0));
        } catch (Throwable t) {
            System.out.println("T");
            if (t instanceof E0) System.out.println(t.getMessage());
        }
        String v20 = ((String) null);
        try {
            M.i0 >>= (B.si2 & ((int) M.la[1]));
        } catch (Throwable t) {
            System.out.println("T");
            if (t instanceof E0) System.out.println(t.getMessage());
        }
        try {
            M.bb[2] = ((B) ((A) (Object) M.p0));
        } catch (Throwable t) {
            System.out.println("T");
            if (t instanceof E0) System.out.println(t.getMessage());
        }
        try {
            M.bb[0] = M.a0.next;
        } catch (Throwable t) {
            System.out.println("T");
            if (t instanceof E0) System.out.println(t.getMessage());
        }
        Object[] v21 = new A[4];
        try {
            System.out.println((M.i0 + ((byte) M.i0)));
        } catch (Throwable t) {
            System.out.println("T");
            if (t instanceof E0) System.out.println(t.getMessage());
        }
        try {
            if ((!((((Object) M.p0) == (Object) M.p0) || ((M.i0 < M.i0) || (!(33 > 0)))))) {
                System.out.println(M.ca[0]);
            } else {
                M.a0.fb = (byte) ((char) ((short) (Integer.parseInt("12") - 31)));
                M.sb.append(v20);
            }
        } catch (Throwable t) {
            System.out.println("T");
            if (t instanceof E0) System.out.println(t.getMessage());
        }
        try {
            try {
                v21[0] = M.p0;
            } catch (E1 v22) {
                System.out.println("E1 13");
                System.out.println(v22.getMessage());
            } catch (IndexOutOfBoundsException v23) {
                System.out.println("IndexOutOfBoundsException 14");
            } catch (NegativeArraySizeException v24) {
                System.out.println("NegativeArraySizeException 15");
            } catch (E0 v25) {
                System.out.println("E0 16");
                System.out.println(v25.getMessage());
                System.out.println(M.s0);
            } catch (RuntimeException v26) {
                System.out.println("RuntimeException 17");
                try {
                    M.aa[1] = M.a0;
                } catch (E2 v27) {
                    System.out.println("E2 18");
                    System.out.println(v27.getMessage());
                    System.arraycopy(M.ba, 3, M.ba, 3, 2);
                } catch (ArithmeticException v28) {
                    System.out.println("ArithmeticException 19");
                } catch (IndexOutOfBoundsException v29) {
                    System.out.println("IndexOutOfBoundsException 20");
                } catch (ClassCastException v30) {
                    System.out.println("ClassCastException 21");
                    try {
                        System.out.println(M.i0);
                        M.i0 *= ((short) M.ha[1]);
                    } catch (ClassCastException v31) {
                        System.out.println("ClassCastException 22");
                    } catch (NegativeArraySizeException v32) {
                        System.out.println("NegativeArraySizeException 23");
                    } catch (ArrayStoreException v33) {
                        System.out.println("ArrayStoreException 24");
                    } catch (ExceptionInInitializerError v34) {
                        System.out.println("ExceptionInInitializerError 25");
                    }
                } catch (E0 v35) {
                    System.out.println("E0 26");
                    System.out.println(v35.getMessage());
                    try {
                        System.out.println((char) (97 + (((M.i0 % (-1)) - M.o0.f(M.i0)) & 15)));
                        System.out.println(A.si);
                        int[] v36 = new int[2];
                    } catch (ArithmeticException v37) {
                        System.out.println("ArithmeticException 27");
                        if (M.ca[(-128)] > 100) throw v37;
                    } catch (ClassCastException v38) {
                        System.out.println("ClassCastException 28");
                        M.ha[3] = (short) M.i0;
                    } catch (IllegalArgumentException v39) {
                        System.out.println("IllegalArgumentException 29");
                        M.sb.append(M.o0.f(M.o0.f(M.i0)));
                    } catch (E0 v40) {
                        System.out.println("E0 30");
                        System.out.println(v40.getMessage());
                        System.out.println(M.a1.fi);
                    }
                }
            }
        } catch (Throwable t) {
            System.out.println("T");
            if (t instanceof E0) System.out.println(t.getMessage());
        }
        try {
            System.out.println(9223372036854775807L);
        } catch (Throwable t) {
            System.out.println("T");
            if (t instanceof E0) System.out.println(t.getMessage());
        }
        try {
            S0.x = ((I0) (Object) M.ja).f((v20.equals(M.p0) ? M.i0 : 0));
        } catch (Throwable t) {
            System.out.println("T");
            if (t instanceof E0) System.out.println(t.getMessage());
        }
        M.ca[h1((5 ^ 255), (M.l0 | M.l0), M.p0, n - 1)] = (char) v20.charAt(1);
        try {
            System.out.println(M.s0.charAt(M.ja[3]));
        } catch (Throwable t) {
            System.out.println("T");
            if (t instanceof E0) System.out.println(t.getMessage());
        }
        Object v41 = M.bb;
        try {
            for (int v42 = 0; v42 < 4; v42++) {
                M.i0 = (M.a1.m1(String.valueOf(M.l0).charAt(M.i0)) | M.o0.f(M.ia[1]));
            }
        } catch (Throwable t) {
            System.out.println("T");
            if (t instanceof E0) System.out.println(t.getMessage());
        }
        int v43 = Integer.parseInt("99999999999");
        try {
            switch ((String.valueOf(true).substring(1, 1).charAt((M.i0 - M.i0)) + M.iia[3][3]) % 5) {
                case 0: ;
                break;
                case 1: ;
                case 3: ;
                break;
                case 4: ;
                default: System.out.println("d");
            }
        } catch (Throwable t) {
            System.out.println("T");
            if (t instanceof E0) System.out.println(t.getMessage());
        }
        try {
            System.arraycopy(M.ba, "x".length(), M.ba, 0, 1);
        } catch (Throwable t) {
            System.out.println("T");
            if (t instanceof E0) System.out.println(t.getMessage());
        }
        long v44 = M.l0;
        try {
            M.sb.append(v43);
        } catch (Throwable t) {
            System.out.println("T");
            if (t instanceof E0) System.out.println(t.getMessage());
        }
        A v45 = M.a0;
        System.out.println(i0);
        System.out.println(sb.toString());
    }
}

interface I0 {
    int f(int x);
}

interface I1 extends I0 {
    int K = 77;
    String NAME = "I1";
    int g(int x, long y);
}

abstract class A implements I0 {
    int fi;
    byte fb;
    short fs;
    char fc;
    long fl;
    boolean fz;
    A next;
    static int si = 1;
    A(int x) {
        fi = x;
        fl = x * 3L;
    }
    A() {
        this(4);
    }
    int m0(int x) {
        try {
            System.arraycopy(M.la, 1, M.la, 1, 1);
            System.out.println(M.a1.me().name(M.a1.m0(M.o0.f(x))));
            M.ba[M.ha[0]] = (byte) ((((Object) M.bb) == (Object) M.p0) ? M.i0 : x);
        } catch (ArithmeticException v1) {
            System.out.println("ArithmeticException 1");
            A[] v2 = new A[2];
        } catch (ArrayIndexOutOfBoundsException v3) {
            System.out.println("ArrayIndexOutOfBoundsException 2");
            M.sb.append((((Object) M.p0) instanceof I1));
        } catch (ClassCastException v4) {
            System.out.println("ClassCastException 3");
            M.oa[2] = M.p0;
        } catch (IllegalArgumentException v5) {
            System.out.println("IllegalArgumentException 4");
        } catch (E0 v6) {
            System.out.println("E0 5");
            System.out.println(v6.getMessage());
            I0 v7 = M.o0;
        } catch (ExceptionInInitializerError v8) {
            System.out.println("ExceptionInInitializerError 6");
            System.out.println(M.i0);
        } catch (LinkageError v9) {
            System.out.println("LinkageError 7");
        }
        return M.i0;
    }
    abstract int m1(int x);
    public int f(int x) {
        return m0(x) + 1;
    }
    long wide(long y, int x) {
        return y * 31 + x;
    }
    A me() {
        return this;
    }
    String name(int x) {
        return "A";
    }
}

class B extends A {
    static int si2 = 5;
    static {
        System.out.println("init B");
        S0.x = 9;
    }
    int fi2;
    B(int x) {
        super(x + 1);
        fi2 = x;
        next = this;
    }
    int m1(int x) {
        return m0(x) - fi2;
    }
    public int f(int x) {
        return x;
    }
    String name(int x) {
        return "B".concat(String.valueOf(x));
    }
}

class C extends A {
    static int si3;
    static {
        System.out.println("init C");
        S0.x = 9;
    }
    C(int x) {
        super(x);
        fb = (byte) x;
    }
    int m1(int x) {
        M.oa[((char) M.ha[0])] = M.p0;
        return (M.ha[3] - M.i0);
    }
    A me() {
        return next;
    }
}

class D extends B implements I1 {
    static int sd = B.si2 + 1;
    static {
        System.out.println("init D");
        S0.x = 9;
    }
    D(int x) {
        super(x);
    }
    public int g(int x, long y) {
        return x + (int) y;
    }
    String name(int x) {
        return super.name(x).concat("D");
    }
}

final class Q implements I1 {
    private int h;
    Q(int x) {
        h = x;
    }
    public int f(int x) {
        return h ^ x;
    }
    public int g(int x, long y) {
        return h;
    }
}

class S0 {
    static int x = M.i0;
}

class S1 {
    static final String T = "tee";
    static int x = M.i0 / (M.i0 & 3);
}

class E0 extends RuntimeException {
    E0() {
        super();
    }
    E0(String s) {
        super(s);
    }
}

class E1 extends E0 {
    int extra = 3;
    E1() {
        this("one");
    }
    E1(String s) {
        super(s);
    }
}

class E2 extends E1 {
    E2() {
    }
    E2(String s) {
        super(s);
    }
    public String getMessage() {
        return "two";
    }
}
