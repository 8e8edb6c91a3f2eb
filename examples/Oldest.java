class Oldest {
    long oldest() {
        long best = 10;
        for (User u : db.fetch(User.class)) {
            if (u.age > best) {
                best = u.age;
            }
        }
        return best;
    }
}
