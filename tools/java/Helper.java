class Helper {
    static int field;

    static int twice(int n) {
        return 2 * n;
    }
}
