class Counted {
    void show() {
        for (User u : db.fetch(User.class)) {
            long n = 0;
            for (Role r : db.fetch(Role.class)) {
                if (r.id == u.roleId) {
                    n = n + 1;
                }
            }
            System.out.println(n);
        }
    }
}
