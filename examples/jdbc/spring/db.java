import java.lang.reflect.Field;
import java.sql.ResultSet;
import java.sql.SQLException;
import java.util.ArrayList;
import java.util.List;
import org.springframework.jdbc.core.JdbcTemplate;

/**
 * The four calls that qbs reads and writes, over Spring's JdbcTemplate: its connections and transactions, and its exceptions. What ../db.java says of
 * rows, of _pos and of packages holds here. Hand the template over once, where the application starts.
 */
public final class db {
    private static volatile JdbcTemplate template;

    private db() {}

    public static void use(JdbcTemplate given) {
        template = given;
    }

    public static <T> List<T> fetch(Class<T> table) {
        return query(table, "SELECT * FROM " + table.getSimpleName() + " ORDER BY _pos");
    }

    public static <T> List<T> query(Class<T> element, String query, Object... arguments) {
        List<Object> given = new ArrayList<>();
        String text = numbered(query, arguments, given);
        return template.query(text, (results, number) -> element.cast(element.getName().startsWith("java.lang.") ? value(results, 1, element) : row(results, element)), given.toArray());
    }

    public static long queryLong(String query, Object... arguments) {
        return query(Long.class, query, arguments).get(0);
    }

    public static boolean queryBoolean(String query, Object... arguments) {
        return query(Boolean.class, query, arguments).get(0);
    }

    /** ?1 to ?9 are JDBC's ?, with their arguments in the order in which they stand; what is in '..' is a text. */
    private static String numbered(String query, Object[] arguments, List<Object> given) {
        StringBuilder text = new StringBuilder();
        boolean quoted = false;
        for (int at = 0; at < query.length(); at++) {
            char character = query.charAt(at);
            quoted ^= character == '\'';
            text.append(character);
            if (character == '?' && !quoted) given.add(arguments[query.charAt(++at) - '1']);
        }
        return text.toString();
    }

    private static <T> T row(ResultSet results, Class<T> table) throws SQLException {
        try {
            T row = table.getDeclaredConstructor().newInstance();
            for (Field field : table.getFields()) {
                if (!field.getType().isPrimitive() && field.getType() != String.class) throw new SQLException(field + " has to be long, int, boolean or String");
                field.set(row, value(results, results.findColumn(field.getName()), field.getType()));
            }
            return row;
        } catch (ReflectiveOperationException fault) {
            throw new SQLException(fault);
        }
    }

    private static Object value(ResultSet results, int column, Class<?> type) throws SQLException {
        Object value;
        if (type == long.class || type == Long.class) value = results.getLong(column);
        else if (type == int.class || type == Integer.class) value = Math.toIntExact(results.getLong(column));
        else if (type == boolean.class || type == Boolean.class) value = results.getBoolean(column);
        else value = results.getString(column);
        if (results.wasNull()) throw new SQLException("NULL in column " + column);
        return value;
    }
}
