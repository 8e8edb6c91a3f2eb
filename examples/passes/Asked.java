class Asked {
    // a query for each user, and one for all
    List<String> labels(long least) {
        List<String> out = new ArrayList<>();
        for (User u : db.fetch(User.class)) {
            if (u.age > least) {
                for (Role r : db.query(Role.class, "SELECT t1.* FROM Role t1 WHERE t1.id = ?1 ORDER BY t1._pos", u.roleId)) {
                    out.add(r.label);
                }
            }
        }
        return out;
    }

    void names() {
        for (User u : db.fetch(User.class)) {
            for (Role r : db.query(Role.class, "SELECT t1.* FROM Role t1 WHERE t1.id = ?1 ORDER BY t1._pos", u.roleId)) {
                System.out.println(r.label); // a loop that prints stands
            }
        }
    }
}
