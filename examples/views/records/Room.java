package app.hotel;

public record Room(long id, int floor, int beds) {
}
