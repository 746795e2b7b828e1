class Sieve {
    static final int SIZE = 120;
    static int[] composite = new int[SIZE];
    static int primes;

    static {
        for (int i = 2; i < SIZE; i++) {
            if (composite[i] == 0) {
                primes++;
                for (int j = i + i; j < SIZE; j += i) composite[j]++;
            }
        }
    }

    static boolean isPrime(int n) {
        return n > 1 && composite[n] == 0;
    }

    static int count(int below) {
        int found = 0;
        for (int i = 2; i < below; i++) {
            if (composite[i] == 0) found++;
        }
        return found;
    }

    static int divisors(byte n) {
        return composite[n & 63] - composite[n >>> 26];
    }

    static int all() {
        return primes;
    }

    static int fresh(int n) {
        int[] mark = new int[n];
        for (int i = 0; i < mark.length; i++) mark[i] = i;
        return mark[n - 1];
    }
}
