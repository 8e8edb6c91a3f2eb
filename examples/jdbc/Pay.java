public class Pay {
    public long id;
    public long personId;
    public long amount;
}
