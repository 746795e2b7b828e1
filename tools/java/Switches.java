class Switches {
    static int dense(int n) {
        switch (n) {
            case -1: return 100;
            case 0: return 200;
            case 1:
            case 2: n += 7;
            case 3: n *= 2; break;
            case 6: n = -n; break;
            default: return n;
        }
        return n + 1;
    }

    static int sparse(int n) {
        switch (n) {
            case Integer.MIN_VALUE: return 1;
            case -9: return 2;
            case 0: return 3;
            case 39: return 4;
            case Integer.MAX_VALUE: return 5;
        }
        return 6;
    }

    static boolean vowel(char c) {
        switch (c) {
            case 'a': case 'e': case 'i': case 'o': case 'u': return true;
            default: return false;
        }
    }

    static int calculate(byte op, int a, int b) {
        switch (op) {
            case 0: return a + b;
            case 1: return a - b;
            case 2: return a * b;
            case 3: return a / b;
            case 4: return a % b;
            case 5: return a << b;
            case 6: return a >> b;
            case 7: return a >>> b;
            case 8: return a & b;
            case 9: return a | b;
            case 10: return a ^ b;
            default: throw new UnsupportedOperationException();
        }
    }

    static int machine(int program) {
        int state = 0, steps = 0;
        while (state != 5) {
            switch (state) {
                case 0: state = (program & 1) == 0 ? 1 : 2; break;
                case 1: state = (program & 2) == 0 ? 3 : 2; break;
                case 2: state = 4; break;
                case 3: steps += 10;
                case 4: state = 5;
            }
            steps++;
        }
        return steps;
    }

    static int days(byte month, short year) {
        switch (month) {
            case 2: return year % 4 == 0 && (year % 100 != 0 || year % 400 == 0) ? 29 : 28;
            case 4: case 6: case 9: case 11: return 30;
            case 1: case 3: case 5: case 7: case 8: case 10: case 12: return 31;
        }
        throw new IllegalArgumentException("month");
    }

    static int none(int n) {
        switch (n) {
        }
        switch (n & 1) {
            default: return n - 1;
        }
    }
}
