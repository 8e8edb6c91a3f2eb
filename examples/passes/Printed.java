class Printed {
    // the `if` stays as it is, with the part that no query tests
    void months(long limit) {
        for (User u : db.fetch(User.class)) {
            if (u.active && u.age > limit && u.age * 12 != 360) {
                System.out.println(u.name);
                System.out.println(u.age * 12); // in months
            }
        }
    }

    long first(String name, long limit) {
        List<User> users = db.fetch(User.class); // for one loop alone
        for (User u : users) {
            if (!u.name.equals(name)) {
                System.out.println(u.id);
                break;
            }
        }
        long n = 0;
        for (User u : db.fetch(User.class)) if (u.age > limit) n++; // rewrite has a query for it
        for (Role r : db.fetch(Role.class)) System.out.println(r.label);
        return n;
    }
}
