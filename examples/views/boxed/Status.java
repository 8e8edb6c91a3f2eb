package app.tracker;

public final class Status {
    public static final int OPEN = 1;
    public static final int CLOSED = 4;

    private Status() {
    }
}
