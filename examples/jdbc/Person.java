public class Person {
    public long id;
    public String name;
    public long roleId;
    public long age;
    public boolean active;
}
