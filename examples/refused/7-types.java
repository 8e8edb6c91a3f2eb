class Types {
    long staff() {
        long n = 0;
        for (Role r : db.fetch(Role.class)) { if (r.label == "staff") { n++; } }
        return n;
    }
}
