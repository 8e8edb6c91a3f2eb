class Listed {
    List<User> staff() {
        List<Long> ids = new ArrayList<>();
        for (Role r : db.fetch(Role.class)) {
            if (r.label.equals("staff")) {
                ids.add(r.id);
            }
        }
        List<User> out = new ArrayList<>();
        for (User u : db.fetch(User.class)) {
            if (ids.contains(u.roleId)) {
                out.add(u);
            }
        }
        return out;
    }
}
