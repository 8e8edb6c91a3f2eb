class Source {
    long count() {
        long n = 0;
        for (User u : db.fetch(User.class)) { n++; }
        return n;
    }
}
