class Kinds {
    static boolean both(boolean a, boolean b) {
        return a & b | !a & !b;
    }

    static byte sumBytes(byte a, byte b) {
        return (byte) (a + b);
    }

    static char nextChar(char c) {
        return ++c;
    }

    static short product(short a, short b) {
        return (short) (a * b);
    }

    static int all(boolean z, byte b, char c, short s, int i) {
        return (z ? b : s) + c * i;
    }

    static int eight(int a, int b, int c, int d, int e, int f, int g, int h) {
        int most = a;
        most = b > most ? b : most;
        most = c > most ? c : most;
        most = d > most ? d : most;
        most = e > most ? e : most;
        most = f > most ? f : most;
        most = g > most ? g : most;
        return h > most ? h : most;
    }

    static boolean less(char a, short b) {
        return a < b;
    }

    static void nothing(boolean z, char c) {
        while (z) {
            if (c-- == 0) return;
        }
    }

    static byte toByte(int n) {
        if (n != (byte) n) throw new IllegalArgumentException("no byte");
        return (byte) n;
    }

    static int none() {
        return -2147483648;
    }
}
