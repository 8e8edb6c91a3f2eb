package app.hotel;

import app.data.Database;
import java.util.List;

public class Bookings {

    private final Database db;

    public Bookings(Database db) {
        this.db = db;
    }

    public List<Booking> all() {
        return db.query(Booking.class, "SELECT * FROM booking ORDER BY id");
    }
}
