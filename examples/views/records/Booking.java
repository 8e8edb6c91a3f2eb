package app.hotel;

/** A stay: the room is taken from firstDay on, and free again on lastDay. */
public record Booking(long id, long roomId, Long guestId, long firstDay, long lastDay) {
}
