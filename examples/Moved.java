class Moved {
    long moved(long w, long z) {
        long u = 1;
        System.out.println(u);
        u = w;
        long v = u;
        u = z;
        long n = 0;
        for (User x : db.fetch(User.class)) {
            if (x.age < v) {
                n = n + 1;
            }
        }
        System.out.println(u);
        return n;
    }
}
