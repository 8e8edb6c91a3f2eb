class Total {
    long total() {
        long sum = 0;
        for (Pay p : db.fetch(Pay.class)) {
            sum = sum + p.amount;
        }
        return sum;
    }
}
