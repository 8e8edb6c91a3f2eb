package app.shop;

public class Reservation {
    public long id;
    public long productId;
    public int pieces;
}
