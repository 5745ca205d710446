package p04;

public class M {
    static int i0 = 8;
    static long l0 = 86183L;
    static int[] ia = {1, 2, 3, 4};
    static int[] ja = new int[5];
    static byte[] ba = {1, -1, 127, -128};
    static char[] ca = new char[4];
    static short[] ha = new short[4];
    static long[] la = new long[6];
    static A a0, a1;
    static I0 o0;
    static Object p0;
    static String s0 = "start";
    static A[] aa = new A[4];
    static A[] bb;
    static Object[] oa = new Object[4];
    static int[][] iia = new int[3][4];
    static StringBuffer sb = new StringBuffer();
    static int boom() {
        throw new E1("boom");
    }
    static int h0(int x, long y, Object p, int n) {
        if (n <= 0) return x;
        M.i0 >>= M.ia[(M.o0.f(M.i0) | ((int) M.l0))];
        Object v2 = M.p0;
        System.out.println(M.ca[2]);
        return h1(x, M.a1.fl, p, n - 1);
    }
    static int h1(int x, long y, Object p, int n) {
        if (n <= 0) return x;
        Object v3 = M.oa;
        D.sd ^= "".charAt(0);
        return String.valueOf(M.l0).length();
    }
    static int h2(int x, long y, Object p, int n) {
        if (n <= 0) return x;
        M.sb.append((((M.ba[1] + x) + ((char) (5 ^ M.i0))) >= ((short) M.ba[2])));
        M.aa[3] = M.a0;
        A v4 = M.a0;
        return M.ba[2];
    }
    static void set() {
        a0 = new B(3);
        a1 = new D(5);
        o0 = new Q(6);
        p0 = a1;
        aa[0] = a0;
        aa[1] = a1;
        bb = new B[4];
        oa[0] = s0;
        oa[1] = ia;
        oa[2] = a0;
    }
    public static void main(String[] args) {
        int n = 3;
        try {
            set();
        } catch (Throwable t) {
            System.out.println("set");
        }
        try {
            System.out.println(M.i0);
        } catch (Throwable t) {
            System.out.println("T");
            if (t instanceof E0) System.out.println(t.getMessage());
        }
        A v5 = ((A) (Object) M.p0);
        I0 v6 = M.o0;
        long v7 = M.la[0];
        try {
            M.oa[3] = M.p0;
        } catch (Throwable t) {
            System.out.println("T");
            if (t instanceof E0) System.out.println(t.getMessage());
        }
        try {
            System.out.println(new StringBuffer().append((Integer.parseInt(" 3") | M.i0)).append("-").append((M.la[1] + v7)).append(M.s0.equals(M.p0)).toString().equals(M.p0));
        } catch (Throwable t) {
            System.out.println("T");
            if (t instanceof E0) System.out.println(t.getMessage());
        }
        try {
            for (int v8 = 0; v8 < 3; v8++) {
                switch ((M.ha[M.sb.length()] + M.a1.fc) ) {
                    case 0: M.a0.fc = (char) ((int) M.a1.wide((v7 - M.l0), v6.f((M.i0 * 2147483647))));
                    case 3: ;
                    break;
                    default: System.out.println("d");
                }
            }
        } catch (Throwable t) {
            System.out.println("T");
            if (t instanceof E0) System.out.println(t.getMessage());
        }
        try {
            if ((((Object) M.p0) instanceof Object[])) {
                M.aa[M.ja[3]] = M.a1;
                try {
                    try {
                        A v9 = M.a0;
                        System.out.println(128);
                    } catch (E1 v10) {
                        System.out.println("E1 1");
                        System.out.println(v10.getMessage());
                    } catch (ArithmeticException v11) {
                        System.out.println("ArithmeticException 2");
                        System.out.println("");
                    } catch (ClassCastException v12) {
                        System.out.println("ClassCastException 3");
                    } catch (NumberFormatException v13) {
                        System.out.println("NumberFormatException 4");
                    } catch (ExceptionInInitializerError v14) {
                        System.out.println("ExceptionInInitializerError 5");
                    }
                } catch (E2 v15) {
                    System.out.println("E2 6");
                    System.out.println(v15.getMessage());
                } catch (E0 v16) {
                    System.out.println("E0 7");
                    System.out.println(v16.getMessage());
                    M.sb.append(M.l0);
                } catch (RuntimeException v17) {
                    System.out.println("RuntimeException 8");
                    if (C.si3 > 100) throw v17;
                } catch (NoClassDefFoundError v18) {
                    System.out.println("NoClassDefFoundError 9");
                    System.out.println(((int) 9223372036854775807L));
                    if ((((M.o0.f(M.i0) + "ab".charAt(0)) % M.i0) - M.i0) > 100) throw v18;
                } catch (Throwable v19) {
                    System.out.println("Throwable 10");
                }
            } else {
            }
        } catch (Throwable t) {
            System.out.println("T");
            if (t instanceof E0) System.out.println(t.getMessage());
        }
        M.sb.append(M.s0);
        try {
            System.out.println((char) (97 + (M.ja[3] & 15)));
        } catch (Throwable t) {
            System.out.println("T");
            if (t instanceof E0) System.out.println(t.getMessage());
        }
        try {
            M.bb[2] = M.a1;
        } catch (Throwable t) {
            System.out.println("T");
            if (t instanceof E0) System.out.println(t.getMessage());
        }
        v5.fi = ((Integer.parseInt(M.s0) + A.si) + (M.i0 | M.s0.length()));
        try {
            try {
                System.out.println((((Object) M.p0) == (Object) M.p0));
                Object v20 = M.p0;
            } catch (E1 v21) {
                System.out.println("E1 11");
                System.out.println(v21.getMessage());
                int v22 = 5;
            } catch (IndexOutOfBoundsException v23) {
                System.out.println("IndexOutOfBoundsException 12");
                try {
                    M.a1.next = M.a1;
                    byte[] v24 = new byte[2];
                    M.sb.append((65535 < M.i0));
                } catch (E2 v25) {
                    System.out.println("E2 13");
                    System.out.println(v25.getMessage());
                    System.out.println(v7);
                } catch (ArrayIndexOutOfBoundsException v26) {
                    System.out.println("ArrayIndexOutOfBoundsException 14");
                    System.arraycopy(M.bb, 1, M.aa, 3, 0);
                } catch (StringIndexOutOfBoundsException v27) {
                    System.out.println("StringIndexOutOfBoundsException 15");
                } catch (IndexOutOfBoundsException v28) {
                    System.out.println("IndexOutOfBoundsException 16");
                    byte[] v29 = new byte[1];
                } catch (ClassCastException v30) {
                    System.out.println("ClassCastException 17");
                } catch (NegativeArraySizeException v31) {
                    System.out.println("NegativeArraySizeException 18");
                } catch (NumberFormatException v32) {
                    System.out.println("NumberFormatException 19");
                } catch (RuntimeException v33) {
                    System.out.println("RuntimeException 20");
                }
            } catch (NegativeArraySizeException v34) {
                System.out.println("NegativeArraySizeException 21");
            } catch (NumberFormatException v35) {
                System.out.println("NumberFormatException 22");
                switch (M.i0 % 5) {
                    case 100: System.out.println((M.a0.fi >>> Integer.parseInt(M.s0)));
                    break;
                    default: System.out.println("d");
                }
            } catch (RuntimeException v36) {
                System.out.println("RuntimeException 23");
            } catch (NoClassDefFoundError v37) {
                System.out.println("NoClassDefFoundError 24");
            } catch (LinkageError v38) {
                System.out.println("LinkageError 25");
                if ((((byte) M.a1.me().m1(M.i0)) | M.i0) > 100) throw v38;
            }
        } catch (Throwable t) {
            System.out.println("T");
            if (t instanceof E0) System.out.println(t.getMessage());
        }
        try {
            M.sb.append((M.i0 % M.i0));
        } catch (Throwable t) {
            System.out.println("T");
            if (t instanceof E0) System.out.println(t.getMessage());
        }
        System.out.println(i0);
        System.out.println(sb.toString());
    }
}

interface I0 {
    int f(int x);
}

interface I1 extends I0 {
    int K = 77;
    String NAME = "I1";
    int g(int x, long y);
}

abstract class A implements I0 {
    int fi;
    byte fb;
    short fs;
    char fc;
    long fl;
    boolean fz;
    A next;
    static int si = 1;
    static {
        System.out.println("init A");
        System.out.println(S0.x);
    }
    A(int x) {
        fi = x;
        fl = x * 3L;
    }
    A() {
        this(4);
    }
    int m0(int x) {
        String v1 = M.s0;
        return (x - (x * M.i0));
    }
    abstract int m1(int x);
    public int f(int x) {
        return m0(x) + 1;
    }
    long wide(long y, int x) {
        return y * 31 + x;
    }
    A me() {
        return this;
    }
    String name(int x) {
        return "A";
    }
}

class B extends A {
    static int si2 = 5;
    static {
        System.out.println("init B");
        if (M.i0 % 2 == 0) M.boom();
    }
    int fi2;
    B(int x) {
        super(x + 1);
        fi2 = x;
        next = this;
    }
    int m1(int x) {
        return m0(x) - fi2;
    }
    String name(int x) {
        return "B".concat(String.valueOf(x));
    }
}

class C extends A {
    static int si3;
    static {
        System.out.println("init C");
        M.i0 += 3;
    }
    C(int x) {
        super(x);
        fb = (byte) x;
    }
    int m1(int x) {
        M.a0.fc = (char) M.ba[0];
        return M.ba[2];
    }
    long wide(long y, int x) {
        return super.wide(x, (int) y);
    }
}

class D extends B implements I1 {
    static int sd = 7;
    static {
        System.out.println("init D");
        int q = 1 / (M.i0 & 1);
        System.out.println(q);
    }
    D(int x) {
        super(x);
    }
    public int g(int x, long y) {
        return x + (int) y;
    }
    int m1(int x) {
        return super.m1(x) ^ 21;
    }
    String name(int x) {
        return super.name(x).concat("D");
    }
}

final class Q implements I1 {
    private int h;
    static {
        System.out.println("init Q");
        System.out.println(S0.x);
    }
    Q(int x) {
        h = x;
    }
    public int f(int x) {
        return h ^ x;
    }
    public int g(int x, long y) {
        return h;
    }
}

class S0 {
    static int x = M.i0;
    static {
        System.out.println("init S0");
    }
}

class S1 {
    static final String T = "tee";
    static int x = M.i0 / (M.i0 & 3);
}

class E0 extends RuntimeException {
    E0() {
        super();
    }
    E0(String s) {
        super(s);
    }
}

class E1 extends E0 {
    int extra = 3;
    E1() {
        this("one");
    }
    E1(String s) {
        super(s);
    }
}

class E2 extends E1 {
    E2() {
    }
    E2(String s) {
        super(s);
    }
    public String getMessage() {
        return "two";
    }
}
