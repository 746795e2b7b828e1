class Bits {
    static int ones(int n) {
        int count = 0;
        for (int i = 0; i < 32; i++) count += n >>> i & 1;
        return count;
    }

    static int clear(int n) {
        int count = 0;
        for (; n != 0; n &= n - 1) count++;
        return count;
    }

    static int reversed(int n) {
        n = (n & 0x55555555) << 1 | (n >>> 1) & 0x55555555;
        n = (n & 0x33333333) << 2 | (n >>> 2) & 0x33333333;
        n = (n & 0x0f0f0f0f) << 4 | (n >>> 4) & 0x0f0f0f0f;
        return n << 24 | (n & 0xff00) << 8 | (n >>> 8) & 0xff00 | n >>> 24;
    }

    static int rotated(int n, byte by) {
        return n << by | n >>> -by;
    }

    static int narrowed(int n) {
        return (byte) n * 3 + (short) n * 5 + (char) n * 7;
    }

    static boolean power(int n) {
        return n != 0 && (n & -n) == n;
    }

    static int absolute(int n) {
        int sign = n >> 31;
        return (n ^ sign) - sign;
    }

    static int average(int a, int b) {
        return (a & b) + ((a ^ b) >> 1);
    }

    static int divided(int a, int b) {
        return a / b * 31 + a % b;
    }

    static int hash(byte a, short b, char c, boolean d) {
        int h = 17;
        h = 31 * h + a;
        h = 31 * h + b;
        h = 31 * h + c;
        return ~h ^ (d ? 1231 : 1237);
    }
}
