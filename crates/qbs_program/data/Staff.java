class A {
    List<User> staff() {
        List<User> out = new ArrayList<>();
        for (User u : db.fetch(User.class)) {
            if (u.roleId == 2) {
                out.add(u);
            }
        }
        return out;
    }
}
