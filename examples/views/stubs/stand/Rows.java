package stand;

import jakarta.persistence.Column;
import jakarta.persistence.Table;
import java.lang.reflect.Constructor;
import java.lang.reflect.Field;
import java.lang.reflect.Modifier;
import java.lang.reflect.RecordComponent;
import java.sql.ResultSet;
import java.sql.SQLException;
import java.util.List;

/** Rows of the database as objects. */
public final class Rows {
    private Rows() {
    }

    public static boolean isScalar(Class<?> type) {
        return List.of(Long.class, Integer.class, Boolean.class, String.class).contains(type);
    }

    /** A column, or null where it is NULL. */
    public static Object value(ResultSet results, int column, Class<?> type) throws SQLException {
        Object value;
        if (type == long.class || type == Long.class) value = results.getLong(column);
        else if (type == int.class || type == Integer.class) value = Math.toIntExact(results.getLong(column));
        else if (type == boolean.class || type == Boolean.class) value = results.getBoolean(column);
        else value = results.getString(column);
        return results.wasNull() ? null : value;
    }

    public static <T> T row(ResultSet results, Class<T> type) throws SQLException {
        try {
            if (type.isRecord()) {
                RecordComponent[] parts = type.getRecordComponents();
                Class<?>[] types = new Class<?>[parts.length];
                Object[] values = new Object[parts.length];
                for (int part = 0; part < parts.length; part++) {
                    types[part] = parts[part].getType();
                    values[part] = value(results, results.findColumn(snake(parts[part].getName())), types[part]);
                }
                return type.getDeclaredConstructor(types).newInstance(values);
            }
            Constructor<T> made = type.getDeclaredConstructor();
            made.setAccessible(true);
            T row = made.newInstance();
            for (Field field : type.getDeclaredFields()) {
                if (Modifier.isStatic(field.getModifiers())) continue;
                field.setAccessible(true);
                int column = column(results, columnOf(field));
                if (column > 0) field.set(row, value(results, column, field.getType()));
            }
            return row;
        } catch (ReflectiveOperationException fault) {
            throw new SQLException(fault);
        }
    }

    public static String tableOf(Class<?> type) {
        Table table = type.getAnnotation(Table.class);
        return table == null || table.name().isEmpty() ? snake(type.getSimpleName()) : table.name();
    }

    private static String columnOf(Field field) {
        Column column = field.getAnnotation(Column.class);
        return column == null || column.name().isEmpty() ? snake(field.getName()) : column.name();
    }

    private static int column(ResultSet results, String name) throws SQLException {
        for (int column = 1; column <= results.getMetaData().getColumnCount(); column++) {
            if (results.getMetaData().getColumnLabel(column).equals(name)) return column;
        }
        return 0;
    }

    static String snake(String name) {
        return name.replaceAll("(?<=.)([A-Z])", "_$1").toLowerCase();
    }
}
