class Turns {
    long power() {
        long n = 1;
        while (n != 100) { n = n * 2; if (n > 100) { n = 1; } }
        return n;
    }
}
