package app.shop;

public class Product {
    public long id;
    public String sku;
    public int shelf;
    public long priceCents;
    public int stock;
    public boolean active;
}
