class Named {
    Set<String> named() {
        Set<String> names = new LinkedHashSet<>();
        for (User u : db.fetch(User.class)) {
            names.add(u.name);
        }
        return names;
    }
}
