class Helped {
    // users of one role; no call stands here, so every byte stays
    List<User> ofRole(long wanted) {
        List<User> out = new ArrayList<>();
        for (User u : db.fetch(User.class)) if (u.roleId == wanted) out.add(u);
        return out;
    }

    boolean has(String label) {
        boolean found = false;
        for (Role r : db.fetch(Role.class)) {
            if (r.label.equals(label)) found = true; // one is enough
        }
        return found;
    }

    /** How many users have a role, and whether there is one that is called so. */
    long count(long role, String label) {
        boolean known = has(label); // a comment in a method with a call goes
        List<User> users = ofRole(role);
        System.out.println(known);
        return users.size();
    }
}
