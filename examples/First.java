class First {
    List<User> first() {
        List<User> users = db.fetch(User.class);
        users.sort(Comparator.comparing(x -> x.name));
        List<User> out = new ArrayList<>();
        int i = 0;
        while (i < 3 && i < users.size()) {
            User u = users.get(i);
            out.add(u);
            i = i + 1;
        }
        return out;
    }
}
