class Fault {
    String last() {
        List<User> users = db.fetch(User.class);
        return users.get(users.size()).name;
    }
}
