class Types {
    long staff() {
        long n = 0;
        for (Role r : db.fetch(Role.class)) { if (r.label.equals("staff")) { n++; } }
        return n;
    }
}
