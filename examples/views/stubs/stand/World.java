package stand;

import jakarta.persistence.EntityManager;
import jakarta.persistence.PersistenceContext;
import java.lang.reflect.Constructor;
import java.lang.reflect.Field;
import java.lang.reflect.InvocationTargetException;
import java.lang.reflect.Method;
import java.lang.reflect.ParameterizedType;
import java.lang.reflect.Proxy;
import java.lang.reflect.Type;
import java.sql.Connection;
import java.sql.DriverManager;
import java.sql.PreparedStatement;
import java.sql.ResultSet;
import java.sql.SQLException;
import java.sql.Statement;
import java.util.ArrayList;
import java.util.HashMap;
import java.util.List;
import java.util.Map;
import java.util.Optional;
import javax.sql.DataSource;
import org.hibernate.Session;
import org.hibernate.SessionFactory;
import org.hibernate.query.NativeQuery;
import org.springframework.beans.factory.annotation.Autowired;
import org.springframework.data.jpa.repository.JpaRepository;
import org.springframework.data.jpa.repository.Query;
import org.springframework.jdbc.core.JdbcTemplate;

/** A database, the session on it, what was logged, and what classes are handed. */
public final class World {
    private static World now;

    public final List<String> log = new ArrayList<>();
    private final Connection connection = DriverManager.getConnection("jdbc:sqlite::memory:");
    private final Map<Class<?>, Object> made = new HashMap<>();
    private final Map<String, Object> session = new HashMap<>();

    public World() throws SQLException {
    }

    public static World now() {
        return now;
    }

    /** A call begins: its log and its session are empty. */
    public void begin() {
        now = this;
        log.clear();
        session.clear();
    }

    public void run(String text, Object... arguments) throws SQLException {
        try (PreparedStatement statement = connection.prepareStatement(text)) {
            for (int number = 1; number <= arguments.length; number++) statement.setObject(number, arguments[number - 1]);
            statement.execute();
        }
    }

    public void close() throws SQLException {
        connection.close();
    }

    /** All rows of tables, as a text. */
    public String dump(List<String> tables) throws SQLException {
        StringBuilder out = new StringBuilder();
        for (String table : tables) {
            try (Statement select = connection.createStatement(); ResultSet rows = select.executeQuery("SELECT * FROM " + table + " ORDER BY _pos")) {
                while (rows.next()) {
                    out.append(table);
                    for (int column = 1; column <= rows.getMetaData().getColumnCount(); column++) out.append(' ').append(rows.getMetaData().getColumnLabel(column)).append('=').append(rows.getObject(column));
                    out.append('\n');
                }
            }
        }
        return out.toString();
    }

    // ---- Sessions

    /** The rows of a query; a session has one object for each row of an entity. */
    private List<Object> list(String text, Class<?> type, Map<Integer, Object> given) {
        try (PreparedStatement select = connection.prepareStatement(text)) {
            for (Map.Entry<Integer, Object> each : given.entrySet()) select.setObject(each.getKey(), each.getValue());
            List<Object> rows = new ArrayList<>();
            try (ResultSet results = select.executeQuery()) {
                while (results.next()) rows.add(type == null ? results.getObject(1) : Rows.isScalar(type) ? Rows.value(results, 1, type) : held(results, type));
            }
            return rows;
        } catch (SQLException fault) {
            throw new IllegalStateException(text, fault);
        }
    }

    private Object held(ResultSet results, Class<?> type) throws SQLException {
        String key = type.getName() + " " + results.getLong("id");
        Object row = session.get(key);
        if (row == null) session.put(key, row = Rows.row(results, type));
        return row;
    }

    private List<Object> all(Class<?> type) {
        return list("SELECT * FROM " + Rows.tableOf(type) + " ORDER BY id", type, Map.of());
    }

    private static <T> T stands(Class<T> type, java.lang.reflect.InvocationHandler handler) {
        return type.cast(Proxy.newProxyInstance(type.getClassLoader(), new Class<?>[] {type}, handler));
    }

    /** A query by its text, as JPA and Hibernate have it. */
    private Object asked(Class<?> kind, String text, Class<?> type) {
        Map<Integer, Object> given = new HashMap<>();
        return stands(kind, (proxy, method, arguments) -> switch (method.getName()) {
            case "setParameter" -> {
                given.put((Integer) arguments[0], arguments[1]);
                yield proxy;
            }
            case "getResultList", "list" -> list(text, type, given);
            default -> list(text, type, given).get(0);
        });
    }

    /** All entities of one class, by the name in a text of JPQL or HQL that begins with from or select. */
    private String byName(String text, Class<?> type) {
        return "SELECT * FROM " + (type != null ? Rows.tableOf(type) : Rows.snake(nameIn(text))) + " ORDER BY id";
    }

    private static String nameIn(String text) {
        return text.replaceFirst("^.*?from ", "").split(" ")[0];
    }

    private EntityManager manager() {
        return stands(EntityManager.class, (proxy, method, arguments) -> {
            Class<?> type = arguments.length > 1 ? (Class<?>) arguments[1] : null;
            String text = (String) arguments[0];
            return method.getName().equals("createQuery") ? asked(jakarta.persistence.TypedQuery.class, byName(text, type), type) : asked(jakarta.persistence.Query.class, text, type);
        });
    }

    private SessionFactory factory(Class<?> owner) {
        Session held = stands(Session.class, (proxy, method, arguments) -> {
            String text = (String) arguments[0];
            if (method.getName().equals("createQuery")) return asked(org.hibernate.query.Query.class, byName(text, null), Class.forName(owner.getPackageName() + "." + nameIn(text), true, owner.getClassLoader()));
            return asked(NativeQuery.class, text, arguments.length > 1 ? (Class<?>) arguments[1] : null);
        });
        return stands(SessionFactory.class, (proxy, method, arguments) -> held);
    }

    // ---- What classes are handed

    /** A connection that stays open when a class closes it. */
    private DataSource source() {
        Connection kept = stands(Connection.class, (proxy, method, arguments) -> {
            if (method.getName().equals("close")) return null;
            try {
                return method.invoke(connection, arguments);
            } catch (InvocationTargetException fault) {
                throw fault.getCause();
            }
        });
        return stands(DataSource.class, (proxy, method, arguments) -> kept);
    }

    private Object repository(Class<?> type) {
        Type[] arguments = ((ParameterizedType) type.getGenericInterfaces()[0]).getActualTypeArguments();
        Class<?> entity = (Class<?>) arguments[0];
        return stands(type, (proxy, method, given) -> {
            Query query = method.getAnnotation(Query.class);
            if (query != null && query.nativeQuery()) {
                try (PreparedStatement update = connection.prepareStatement(query.value())) {
                    for (int number = 1; number <= given.length; number++) update.setObject(number, given[number - 1]);
                    return update.executeUpdate();
                }
            }
            if (method.getName().startsWith("findAll")) return all(entity);
            if (method.getName().equals("findById")) {
                return Optional.ofNullable(list("SELECT * FROM " + Rows.tableOf(entity) + " WHERE id = ?1", entity, Map.of(1, given[0])).stream().findFirst().orElse(null));
            }
            throw new UnsupportedOperationException(method.toString());
        });
    }

    static boolean isHanded(Class<?> type) {
        return type.isInterface() || type == JdbcTemplate.class || type.getName().equals("app.data.Database") || type.getName().endsWith("Dao");
    }

    public Object make(Class<?> type, Class<?> owner) throws ReflectiveOperationException {
        if (type == DataSource.class) return source();
        if (type == EntityManager.class) return manager();
        if (type == SessionFactory.class) return factory(owner);
        Object found = made.get(type);
        if (found == null) made.put(type, found = JpaRepository.class.isAssignableFrom(type) ? repository(type) : object(type));
        return found;
    }

    private Object object(Class<?> type) throws ReflectiveOperationException {
        Constructor<?> constructor = type.getConstructors()[0];
        Object[] handed = new Object[constructor.getParameterCount()];
        for (int number = 0; number < handed.length; number++) handed[number] = make(constructor.getParameterTypes()[number], type);
        Object object = constructor.newInstance(handed);
        for (Field field : type.getDeclaredFields()) {
            if (!field.isAnnotationPresent(Autowired.class) && !field.isAnnotationPresent(PersistenceContext.class)) continue;
            field.setAccessible(true);
            field.set(object, make(field.getType(), type));
        }
        for (Method method : type.getMethods()) {
            if (isSetter(method)) method.invoke(object, make(method.getParameterTypes()[0], type));
        }
        return object;
    }

    static boolean isSetter(Method method) {
        return method.getName().startsWith("set") && method.getParameterCount() == 1 && isHanded(method.getParameterTypes()[0]);
    }
}
