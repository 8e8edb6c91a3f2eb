import jakarta.persistence.EntityManager;
import jakarta.persistence.Query;
import jakarta.persistence.Tuple;
import jakarta.persistence.TupleElement;
import java.lang.reflect.Field;
import java.util.ArrayList;
import java.util.List;

/**
 * The four calls that qbs reads and writes, over JPA's EntityManager: ?1 to ?9 are JPA's own form of arguments, so queries go as they are. Rows are plain
 * classes with public fields, as ../db.java says, and no entities: they are made anew by each query, and nothing is written back. What isn't flushed yet
 * isn't in the database, so EntityManagers flush before a query, which is what they do if nothing else is said. Before JPA 3 the package is javax.persistence.
 */
public final class db {
    private static final ThreadLocal<EntityManager> MANAGER = new ThreadLocal<>();

    private db() {}

    /** The manager of this thread. */
    public static void use(EntityManager manager) {
        MANAGER.set(manager);
    }

    public static <T> List<T> fetch(Class<T> table) {
        return query(table, "SELECT * FROM " + table.getSimpleName() + " ORDER BY _pos");
    }

    public static <T> List<T> query(Class<T> element, String query, Object... arguments) {
        Query asked = MANAGER.get().createNativeQuery(query, Tuple.class);
        for (int number = 1; number <= arguments.length; number++) asked.setParameter(number, arguments[number - 1]);
        List<T> rows = new ArrayList<>();
        try {
            for (Object each : asked.getResultList()) {
                Tuple found = (Tuple) each;
                rows.add(element.cast(element.getName().startsWith("java.lang.") ? value(found.get(0), element) : row(found, element)));
            }
        } catch (ReflectiveOperationException fault) {
            throw new IllegalStateException(query, fault);
        }
        return rows;
    }

    public static long queryLong(String query, Object... arguments) {
        return query(Long.class, query, arguments).get(0);
    }

    public static boolean queryBoolean(String query, Object... arguments) {
        return query(Boolean.class, query, arguments).get(0);
    }

    private static <T> T row(Tuple found, Class<T> table) throws ReflectiveOperationException {
        T row = table.getDeclaredConstructor().newInstance();
        for (Field field : table.getFields()) {
            if (!field.getType().isPrimitive() && field.getType() != String.class) throw new IllegalStateException(field + " has to be long, int, boolean or String");
            field.set(row, value(column(found, field.getName()), field.getType()));
        }
        return row;
    }

    // (a database may spell names in small letters or in large ones)
    private static Object column(Tuple found, String name) {
        for (TupleElement<?> element : found.getElements()) if (name.equalsIgnoreCase(element.getAlias())) return found.get(element.getAlias());
        throw new IllegalStateException("no column " + name);
    }

    private static Object value(Object found, Class<?> type) {
        if (found == null) throw new IllegalStateException("NULL in a column");
        if (type == boolean.class || type == Boolean.class) return found instanceof Number ? ((Number) found).longValue() != 0 : found;
        if (type == long.class || type == Long.class) return exact(found);
        if (type == int.class || type == Integer.class) return Math.toIntExact(exact(found));
        return found.toString();
    }

    // (a sum of PostgreSQL is a longer number)
    private static long exact(Object found) {
        return found instanceof java.math.BigDecimal ? ((java.math.BigDecimal) found).longValueExact() : found instanceof java.math.BigInteger ? ((java.math.BigInteger) found).longValueExact() : ((Number) found).longValue();
    }
}
