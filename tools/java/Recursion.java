class Recursion {
    static int calls;

    static int fibonacci(int n) {
        calls++;
        return n < 2 ? n : fibonacci(n - 1) + fibonacci(n - 2);
    }

    static int callsFor(int n) {
        fibonacci(n);
        return calls;
    }

    static int ackermann(byte m, byte n) {
        if (m == 0) return n + 1;
        if (n == 0) return ackermann((byte) (m - 1), (byte) 1);
        return ackermann((byte) (m - 1), (byte) ackermann(m, (byte) (n - 1)));
    }

    static int down(int n) {
        return n <= 0 ? 0 : 1 + down(n - 1);
    }

    static boolean even(int n) {
        return n == 0 || odd(n - 1);
    }

    static boolean odd(int n) {
        return n != 0 && even(n - 1);
    }

    static int hanoi(int discs, char from, char to) {
        if (discs == 0) return 0;
        char other = (char) (6 - from - to);
        return hanoi(discs - 1, from, other) + 1 + hanoi(discs - 1, other, to);
    }

    static int fixed(int n) {
        return depth(250) + n;
    }

    static int tooDeep(int n) {
        return depth(255) + n;
    }

    static int depth(int left) {
        if (left == 0) return 0;
        return 1 + depth(left - 1);
    }
}
