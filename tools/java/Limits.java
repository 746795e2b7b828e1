class Limits {
    static int spins(int n) {
        int i = 0;
        while (n != 0) i++;
        return i;
    }

    static int counts(int n) {
        int sum = 0;
        for (int i = 0; i < 1800; i++) sum += i ^ 1;
        return sum + n;
    }

    static int countsOn(int n) {
        int sum = 0;
        for (int i = 0; i < 2600; i++) sum += i ^ 1;
        return sum + n;
    }

    static int choices(int n) {
        int i = 0;
        while (i < n) i++;
        return i;
    }

    static int long_array(boolean big) {
        int[] list = big ? new int[257] : new int[256];
        return list.length;
    }

    static int arrays(boolean more) {
        int made = 0;
        for (int i = 0; i < 16; i++) made += new int[256].length;
        if (more) made += new int[1].length;
        return made + new int[0].length;
    }

    static int cellsOf(char n) {
        return new int[n].length;
    }

    static int throwables(int n) {
        int caught = 0;
        for (int i = 0; i < n; i++) {
            for (int j = 0; j < 600; j++) {
                try {
                    caught += j / 0;
                } catch (ArithmeticException e) {
                    caught++;
                }
            }
        }
        return caught;
    }
}
