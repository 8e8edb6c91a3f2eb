package app.hotel;

import app.data.Database;
import java.util.List;

public class Rooms {

    private final Database db;

    public Rooms(Database db) {
        this.db = db;
    }

    public List<Room> all() {
        return db.query(Room.class, "SELECT * FROM room ORDER BY id");
    }
}
