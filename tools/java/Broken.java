class Broken {
    static int first = 4;
    static int second = 12 / (first - 4);

    static int sum(int n) {
        return n + first + second;
    }

    static boolean any(boolean b) {
        return b;
    }
}
