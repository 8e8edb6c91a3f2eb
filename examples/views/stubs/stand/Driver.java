package stand;

/** Ends well where SQLite's driver is there. */
public final class Driver {
    private Driver() {
    }

    public static void main(String[] words) throws java.sql.SQLException {
        java.sql.DriverManager.getConnection("jdbc:sqlite::memory:").close();
    }
}
