class Statics {
    static final int LIMIT = -70000;
    static final char LETTER = 'x';
    static final boolean ON = true;
    static boolean open = ON;
    static byte small = -128;
    static char letter = LETTER;
    static short middle = (short) 40000;
    static int large = LIMIT * 3;
    static int count;
    static int[] none;
    static int[] some = {3, 1, 4, 1, 5, 9, 2, 6};

    static int mixed(int n) {
        count += n;
        small -= n;
        letter += n;
        middle ^= n;
        large >>= n;
        return count + small + letter + middle + large;
    }

    static boolean toggled(boolean flag) {
        open ^= flag;
        return open;
    }

    static int next(byte seed) {
        int product = 1;
        for (int i = 0; i < some.length; i++) {
            some[i] = some[i] * seed + i;
            product *= some[i];
        }
        return product;
    }

    static int length(boolean some) {
        return (some ? Statics.some : none).length;
    }

    static char shifted(char c) {
        letter = (char) (c + letter);
        return letter--;
    }

    static void reset(int n) {
        if (n != 0) none = some;
        none[n] = 0;
    }

    static short sum(short a, short b) {
        middle = (short) (a + b);
        return middle++;
    }

    static int present(int n) {
        if (n >= 0 && none == null) return n;
        if (n != -1) none = some;
        if (none != null) n -= none.length;
        return (none != some ? 1000 : 2000) + (some == none ? n : -n);
    }
}
