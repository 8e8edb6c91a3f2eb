public class Role {
    public long id;
    public String label;
}
