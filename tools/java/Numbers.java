class Numbers {
    static int gcd(int a, int b) {
        while (b != 0) {
            int rest = a % b;
            a = b;
            b = rest;
        }
        return a < 0 ? -a : a;
    }

    static int lcm(int a, int b) {
        return a / gcd(a, b) * b;
    }

    static boolean isPrime(int n) {
        if (n < 2) return false;
        for (int d = 2; d * d <= n; d++) {
            if (n % d == 0) return false;
        }
        return true;
    }

    static int power(int base, byte exponent) {
        if (exponent < 0) throw new IllegalArgumentException("negative exponent");
        int result = 1;
        for (int left = exponent; left > 0; left >>= 1) {
            if ((left & 1) != 0) result *= base;
            base *= base;
        }
        return result;
    }

    static int collatz(short n) {
        int steps = 0;
        for (int at = n; at != 1; steps++) {
            at = at % 2 == 0 ? at / 2 : 3 * at + 1;
        }
        return steps;
    }

    static int digitSum(int n) {
        int sum = 0;
        do {
            sum += n % 10;
            n /= 10;
        } while (n != 0);
        return sum;
    }

    static int root(int n) {
        if (n < 0) throw new ArithmeticException();
        int low = 0, high = 46341;
        while (high - low > 1) {
            int middle = (low + high) >>> 1;
            if (middle * middle <= n) low = middle; else high = middle;
        }
        return low;
    }
}
