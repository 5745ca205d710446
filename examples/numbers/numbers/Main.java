import sieve.Primes;

/** Whole numbers of 32 and 64 bits, loops, both kinds of switch, and calls into a class of another package. */
public class Main {
    public static void main(String[] words) {
        System.out.println("primes below 50:");
        int found = 0;
        for (int n = 2; n < 50; n++) {
            if (Primes.isPrime(n)) {
                found++;
                System.out.println(n);
            }
        }
        System.out.println("so many:");
        System.out.println(found);
        System.out.println("20! is");
        System.out.println(factorial(20));
        for (int month = 1; month <= 3; month++) {
            System.out.println(days(month));
        }
        System.out.println(value('I') + value('X'));
        System.out.println(gcd(1071, 462) == 21);
        System.out.println();
        System.out.println((char) ('a' + found));
    }

    static long factorial(int n) {
        return n == 0 ? 1 : n * factorial(n - 1);
    }

    static int gcd(int a, int b) {
        while (b != 0) {
            int rest = a % b;
            a = b;
            b = rest;
        }
        return a;
    }

    /** A compiler makes a table of this switch. */
    static int days(int month) {
        switch (month) {
            case 1: return 31;
            case 2: return 28;
            case 3: return 31;
            default: return 0;
        }
    }

    /** And a search of this one. */
    static int value(char digit) {
        switch (digit) {
            case 'I': return 1;
            case 'X': return 10;
            case 'M': return 1000;
            default: return 0;
        }
    }
}
