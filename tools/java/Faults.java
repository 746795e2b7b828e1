class Faults {
    static int trace;

    static int made(int which) {
        try {
            switch (which) {
                case 0: throw new IllegalArgumentException("argument");
                case 1: throw new IllegalStateException();
                case 2: throw new UnsupportedOperationException("operation");
                case 3: throw new NullPointerException();
                case 4: throw new ArrayIndexOutOfBoundsException("index");
                case 5: throw new IndexOutOfBoundsException();
                case 6: throw new NegativeArraySizeException();
                case 7: throw new ArithmeticException("arithmetic");
                case 8: throw new RuntimeException();
                case 9: throw new Error("error");
            }
        } catch (IllegalStateException e) {
            return 1;
        } catch (ArithmeticException e) {
            throw new IllegalStateException("again");
        } finally {
            trace++;
        }
        return which * trace;
    }

    static int checked(int n) throws Exception {
        if (n > 0) throw new Exception("positive");
        if (n < -100) throw new IndexOutOfBoundsException();
        return -n;
    }

    static int wrapped(int n) {
        int result = 1;
        try {
            result = 100 / checked(n);
        } catch (RuntimeException e) {
            result += 1000;
        } catch (Exception e) {
            result += 2000;
        } finally {
            result *= 2;
        }
        return result;
    }

    static int nested(int a, int b) throws Throwable {
        try {
            try {
                return a / b;
            } finally {
                if (a == 7) throw new Error();
                trace = 5;
            }
        } catch (ArithmeticException e) {
            if (a > 10) throw e;
            return trace;
        }
    }

    static int index(byte i, byte n) {
        int[] list = {2, 3, 5, 7};
        try {
            list[i] += n;
            return list[n];
        } catch (ArrayIndexOutOfBoundsException e) {
            return list[3] + n;
        }
    }

    static int machine(int which) {
        int[] list = which > 3 ? new int[2] : null;
        try {
            if (which == 1) return list.length;
            if (which == 2) return list[0];
            if (which == 3) throw null;
            if (which == 4) list = new int[-1];
            if (which == 5) list[2] = 1;
            if (which == 6) return 1 / list[1];
            list[0] = which;
        } catch (NullPointerException e) {
            return -which;
        }
        return list[0];
    }

    static int over(int n) {
        while (true) {
            try {
                if (n > 3) return n;
                n = checked(n) + 1;
            } catch (Throwable t) {
                n += 2;
                continue;
            } finally {
                if (n == 2) break;
            }
        }
        return -1;
    }

    static void thrown(boolean runtime) throws Throwable {
        Throwable t = runtime ? new RuntimeException("r") : new Exception("e");
        throw t;
    }
}
