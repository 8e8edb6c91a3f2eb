package app.hotel;

import app.data.Database;
import java.util.ArrayList;
import java.util.HashSet;
import java.util.List;
import java.util.Set;
import java.util.stream.Collectors;

/** Bookings and rooms, as records. */
public final class BookingService {

    private final Bookings bookings;
    private final Rooms rooms;
    private final Database db;

    public BookingService(Bookings bookings, Rooms rooms, Database db) {
        this.bookings = bookings;
        this.rooms = rooms;
        this.db = db;
    }

    public List<Booking> on(long day) {
        var found = new ArrayList<Booking>();
        for (var booking : bookings.all()) {
            if (booking.firstDay() <= day && day < booking.lastDay()) {
                found.add(booking);
            }
        }
        return found;
    }

    /** Rooms that nobody has on a day. */
    public List<Room> free(long day) {
        Set<Long> taken = new HashSet<>();
        for (var booking : bookings.all()) {
            if (booking.firstDay() <= day && day < booking.lastDay()) {
                taken.add(booking.roomId());
            }
        }
        List<Room> free = new ArrayList<>();
        for (var room : rooms.all()) {
            if (!taken.contains(room.id())) {
                free.add(room);
            }
        }
        return free;
    }

    public long beds() {
        long beds = 0;
        for (var room : rooms.all()) {
            beds += room.beds();
        }
        return beds;
    }

    public boolean isFree(Room room, long day) {
        for (var booking : bookings.all()) {
            if (booking.roomId() == room.id() && booking.firstDay() <= day && day < booking.lastDay()) {
                return false;
            }
        }
        return true;
    }

    public long nights(Long guestId) {
        long nights = 0;
        for (var booking : bookings.all()) {
            if (booking.guestId().equals(guestId)) {
                nights += booking.lastDay() - booking.firstDay();
            }
        }
        return nights;
    }

    public List<Long> guests() {
        return bookings.all().stream().map(Booking::guestId).distinct().collect(Collectors.toList());
    }
}
