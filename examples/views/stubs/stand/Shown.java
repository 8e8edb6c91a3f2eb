package stand;

import java.lang.reflect.Field;
import java.lang.reflect.Modifier;
import java.util.Arrays;
import java.util.Collection;
import java.util.List;
import java.util.Map;
import java.util.Optional;
import java.util.Set;

/** Values as texts that are equal where nobody can tell the values apart by their contents. */
public final class Shown {
    private Shown() {
    }

    public static String of(Object value) {
        if (value == null) return "null";
        if (value instanceof Throwable fault) return fault.getClass().getName() + ": " + fault.getMessage();
        if (value instanceof String) return '"' + value.toString() + '"';
        if (value instanceof Map<?, ?> map) return all("map", map.entrySet());
        if (value instanceof Map.Entry<?, ?> entry) return of(entry.getKey()) + "=" + of(entry.getValue());
        if (value instanceof Optional<?> found) return "optional " + of(found.orElse(null));
        if (value instanceof Object[] array) return all("array", Arrays.asList(array));
        if (value instanceof Collection<?> many) return all(many instanceof Set ? "set" : many instanceof List ? "list" : "collection", many);
        if (value.getClass().getName().startsWith("app.")) return fields(value);
        return value.getClass().getSimpleName() + " " + value;
    }

    private static String all(String kind, Collection<?> many) {
        StringBuilder out = new StringBuilder(kind).append('[');
        for (Object each : many) out.append(of(each)).append("; ");
        return out.append(']').toString();
    }

    private static String fields(Object row) {
        StringBuilder out = new StringBuilder(row.getClass().getSimpleName()).append('{');
        try {
            for (Field field : row.getClass().getDeclaredFields()) {
                if (Modifier.isStatic(field.getModifiers())) continue;
                field.setAccessible(true);
                out.append(field.getName()).append('=').append(of(field.get(row))).append(' ');
            }
        } catch (IllegalAccessException fault) {
            throw new IllegalStateException(fault);
        }
        return out.append('}').toString();
    }
}
