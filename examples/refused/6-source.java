class Source {
    private final Db db;

    Source(Db db) {
        this.db = db;
    }

    long count() {
        long n = 0;
        for (User u : db.fetch(User.class)) { n++; }
        return n;
    }
}
