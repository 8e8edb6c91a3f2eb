import java.lang.reflect.Field;
import java.sql.Connection;
import java.sql.PreparedStatement;
import java.sql.ResultSet;
import java.sql.SQLException;
import java.util.ArrayList;
import java.util.List;

/**
 * The four calls that qbs reads and writes, over JDBC. It is a class called db, so that a source says db.fetch(..) without a field.
 * Each table of the schema is a class with a public field for each column, and has a column _pos in the database. A field is long, int, boolean
 * or String: of two Long, == asks whether they are one object, so that a loop would find other rows than its query.
 *
 * Into a package: put `package your.app;` on top, and where a source stands in another package `import your.app.db;` there, which qbs reads
 * past. A class of no package can't be imported, so this one serves only sources of no package as it stands.
 */
public final class db {
    private static final ThreadLocal<Connection> CONNECTION = new ThreadLocal<>();
    private static final ThreadLocal<Long> ROWS = ThreadLocal.withInitial(() -> 0L);

    private db() {}

    /** The connection of this thread. */
    public static void use(Connection connection) {
        CONNECTION.set(connection);
    }

    /** How many rows this thread has read. */
    public static long rows() {
        return ROWS.get();
    }

    public static <T> List<T> fetch(Class<T> table) {
        return query(table, "SELECT * FROM " + table.getSimpleName() + " ORDER BY _pos");
    }

    public static <T> List<T> query(Class<T> element, String query, Object... arguments) {
        try (PreparedStatement statement = prepare(query, arguments); ResultSet results = statement.executeQuery()) {
            List<T> rows = new ArrayList<>();
            while (results.next()) {
                ROWS.set(ROWS.get() + 1);
                rows.add(element.cast(element.getName().startsWith("java.lang.") ? value(results, 1, element) : row(results, element)));
            }
            return rows;
        } catch (SQLException | ReflectiveOperationException fault) {
            throw new IllegalStateException(query, fault);
        }
    }

    public static long queryLong(String query, Object... arguments) {
        return query(Long.class, query, arguments).get(0);
    }

    public static boolean queryBoolean(String query, Object... arguments) {
        return query(Boolean.class, query, arguments).get(0);
    }

    /** ?1 to ?9 are JDBC's ?, with their arguments in the order in which they stand; what is in '..' is a text. */
    private static PreparedStatement prepare(String query, Object[] arguments) throws SQLException {
        StringBuilder text = new StringBuilder();
        List<Object> given = new ArrayList<>();
        boolean quoted = false;
        for (int at = 0; at < query.length(); at++) {
            char character = query.charAt(at);
            quoted ^= character == '\'';
            text.append(character);
            if (character == '?' && !quoted) given.add(arguments[query.charAt(++at) - '1']);
        }
        PreparedStatement statement = CONNECTION.get().prepareStatement(text.toString());
        for (int number = 0; number < given.size(); number++) statement.setObject(number + 1, given.get(number));
        return statement;
    }

    private static <T> T row(ResultSet results, Class<T> table) throws SQLException, ReflectiveOperationException {
        T row = table.getDeclaredConstructor().newInstance();
        for (Field field : table.getFields()) {
            if (!field.getType().isPrimitive() && field.getType() != String.class) throw new SQLException(field + " has to be long, int, boolean or String");
            field.set(row, value(results, results.findColumn(field.getName()), field.getType()));
        }
        return row;
    }

    private static Object value(ResultSet results, int column, Class<?> type) throws SQLException {
        Object value;
        if (type == long.class || type == Long.class) value = results.getLong(column);
        else if (type == int.class || type == Integer.class) value = Math.toIntExact(results.getLong(column));
        else if (type == boolean.class || type == Boolean.class) value = results.getBoolean(column);
        else value = results.getString(column);
        if (results.wasNull()) throw new SQLException("NULL in column " + column);
        return value;
    }
}
