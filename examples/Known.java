class Known {
    List<User> known() {
        List<User> out = new ArrayList<>();
        List<Role> roles = db.fetch(Role.class);
        for (User u : db.fetch(User.class)) {
            boolean found = false;
            for (Role r : roles) {
                if (r.id == u.roleId) {
                    found = true;
                }
            }
            if (found) {
                out.add(u);
            }
        }
        return out;
    }
}
