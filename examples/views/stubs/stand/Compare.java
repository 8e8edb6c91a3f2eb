package stand;

import java.lang.reflect.InvocationTargetException;
import java.lang.reflect.Method;
import java.lang.reflect.Modifier;
import java.lang.reflect.Parameter;
import java.net.URL;
import java.net.URLClassLoader;
import java.nio.file.Files;
import java.nio.file.Path;
import java.sql.SQLException;
import java.util.ArrayList;
import java.util.Arrays;
import java.util.Comparator;
import java.util.List;
import java.util.Random;
import java.util.regex.Matcher;
import java.util.regex.Pattern;

/**
 * Calls each public method of classes as they were and as they were rewritten, over equal random tables, and compares results, exceptions, logs and what
 * the tables hold afterwards: Compare BEFORE AFTER CALLS SEED SOURCE.., where BEFORE and AFTER are folders of compiled classes and a schema stands
 * beside each source. It ends with 1 at the first difference of each class, and says the call.
 */
public final class Compare {
    private static final int CALLS_A_METHOD = 4;

    private final Random random;
    private final List<Long> numbers = new ArrayList<>();
    private final List<String> texts = new ArrayList<>();

    private Compare(long seed) {
        random = new Random(seed);
    }

    public static void main(String[] words) throws Exception {
        int most = Integer.parseInt(words[2]);
        Compare compare = new Compare(Long.parseLong(words[3]));
        List<Side> sides = new ArrayList<>();
        for (String source : Arrays.copyOfRange(words, 4, words.length)) sides.add(new Side(Path.of(source), words[0], words[1]));
        int calls = 0;
        int differences = 0;
        while (calls < most) {
            for (Side side : sides) {
                if (side.differs) continue;
                calls += compare.round(side);
                if (side.differs) differences++;
            }
            if (differences == sides.size()) break;
        }
        for (Side side : sides) System.out.println("jvm: " + side.name + ": " + side.calls + " calls, " + side.faults + " of them ended in an exception" + (side.differs ? ", one DIFFERS" : ""));
        System.out.println("jvm: " + calls + " calls, " + differences + " differences");
        System.exit(differences == 0 ? 0 : 1);
    }

    /** A class before and after, and its tables. */
    private static final class Side {
        final String name;
        final Class<?> before;
        final Class<?> after;
        final String source;
        final List<String> creates = new ArrayList<>();
        final List<String> tables = new ArrayList<>();
        int calls;
        int faults;
        boolean differs;

        Side(Path path, String before, String after) throws Exception {
            source = Files.readString(path);
            Matcher at = Pattern.compile("package ([\\w.]+);").matcher(source);
            at.find();
            name = at.group(1) + "." + path.getFileName().toString().replace(".java", "");
            this.before = loaded(before, name);
            this.after = loaded(after, name);
            for (String create : Files.readString(Path.of(path.toString().replace(".java", ".sql"))).split(";")) {
                if (create.isBlank()) continue;
                creates.add(create.strip());
                tables.add(create.strip().split("\\s+")[2]);
            }
        }

        private static Class<?> loaded(String folder, String name) throws Exception {
            return Class.forName(name, true, new URLClassLoader(new URL[] {Path.of(folder).toUri().toURL()}, Compare.class.getClassLoader()));
        }

        /** Whether the class tests a name for null: then it may be null. */
        boolean isTested(String parameter) {
            return Pattern.compile("\\b" + parameter + "\\s*[!=]=\\s*null").matcher(source).find();
        }
    }

    private int round(Side side) throws Exception {
        World before = new World();
        World after = new World();
        fill(side, before, after);
        before.begin();
        Object one = before.make(side.before, side.before);
        after.begin();
        Object other = after.make(side.after, side.after);
        int calls = 0;
        Method[] methods = side.before.getDeclaredMethods();
        Arrays.sort(methods, Comparator.comparing(Method::toString));
        for (int turn = 0; turn < CALLS_A_METHOD; turn++) {
            for (Method method : methods) {
                if (!Modifier.isPublic(method.getModifiers()) || World.isSetter(method) || World.isHanded(method.getReturnType()) && method.getParameterCount() == 0 && method.getReturnType().getName().startsWith("app.")) continue;
                Object[] given = new Object[method.getParameterCount()];
                Object[] givenAfter = new Object[given.length];
                arguments(side, method, given, givenAfter);
                String shown = Shown.of(given);
                String was = before.dump(side.tables);
                String left = outcome(before, side, method, one, given);
                if (left.contains("threw")) side.faults++;
                Method changed = side.after.getDeclaredMethod(method.getName(), types(method, side.after.getClassLoader()));
                String right = outcome(after, side, changed, other, givenAfter);
                calls++;
                side.calls++;
                if (left.equals(right)) continue;
                side.differs = true;
                System.out.println("jvm: DIFFERENCE in " + method + " of " + shown + "\n-- before\n" + left + "\n-- after\n" + right + "\n-- tables\n" + was);
                return calls;
            }
        }
        before.close();
        after.close();
        return calls;
    }

    private static Class<?>[] types(Method method, ClassLoader loader) throws ClassNotFoundException {
        Class<?>[] types = method.getParameterTypes();
        for (int number = 0; number < types.length; number++) {
            if (types[number].getName().startsWith("app.")) types[number] = Class.forName(types[number].getName(), true, loader);
        }
        return types;
    }

    /** What a call gives, throws, logs and leaves in the tables. */
    private static String outcome(World world, Side side, Method method, Object object, Object[] given) throws Exception {
        world.begin();
        String end;
        try {
            end = "gave " + Shown.of(method.invoke(object, given));
        } catch (InvocationTargetException fault) {
            end = "threw " + Shown.of(fault.getCause());
        }
        return end + "\nlog " + world.log + "\nargs " + Shown.of(given) + "\n" + world.dump(side.tables);
    }

    // ---- Random tables and arguments

    private void fill(Side side, World before, World after) throws SQLException {
        numbers.clear();
        texts.clear();
        Matcher literals = Pattern.compile("\"([\\w]{1,12})\"").matcher(side.source);
        while (literals.find()) texts.add(literals.group(1));
        texts.addAll(List.of("a", "B", "", "a b"));
        // (beyond 127 two equal boxed numbers are two objects)
        long base = random.nextBoolean() ? 0 : 1000;
        long scale = random.nextBoolean() ? 1 : 20000;
        int most = random.nextInt(10);
        for (long key = base + 1; key <= base + 9; key++) numbers.add(key);
        for (int table = 0; table < side.tables.size(); table++) {
            String create = side.creates.get(table);
            int last = create.lastIndexOf(')');
            String text = create.substring(0, last) + ", _pos BIGINT NOT NULL UNIQUE)";
            before.run(text);
            after.run(text);
            String[] columns = create.substring(create.indexOf('(') + 1, last).split(", ");
            StringBuilder holes = new StringBuilder("?");
            for (String each : columns) holes.append(", ?");
            long key = base;
            int rows = random.nextInt(most + 1);
            for (int row = 0; row < rows; row++) {
                key += 1 + random.nextInt(2);
                Object[] values = new Object[columns.length + 1];
                for (int column = 0; column < columns.length; column++) values[column] = value(columns[column], key, base, scale);
                values[columns.length] = row;
                before.run("INSERT INTO " + side.tables.get(table) + " VALUES (" + holes + ")", values);
                after.run("INSERT INTO " + side.tables.get(table) + " VALUES (" + holes + ")", values);
            }
        }
        for (int each = 0; each < 10; each++) numbers.add(each * scale);
    }

    private Object value(String column, long key, long base, long scale) {
        if (column.contains("PRIMARY KEY")) return key;
        if (!column.contains("NOT NULL") && random.nextInt(3) == 0) return null;
        if (column.contains("BOOLEAN")) return random.nextBoolean();
        if (column.contains("VARCHAR") || column.contains("TEXT")) return texts.get(random.nextInt(texts.size()));
        if (column.contains("_id")) return base + 1 + random.nextInt(8);
        return random.nextInt(8) * scale;
    }

    private void arguments(Side side, Method method, Object[] given, Object[] after) throws Exception {
        Parameter[] parameters = method.getParameters();
        for (int number = 0; number < parameters.length; number++) {
            Class<?> type = parameters[number].getType();
            boolean isNull = !type.isPrimitive() && side.isTested(parameters[number].getName()) && random.nextInt(6) == 0;
            long seed = random.nextLong();
            given[number] = isNull ? null : argument(type, new Random(seed));
            Class<?> other = type.getName().startsWith("app.") ? Class.forName(type.getName(), true, side.after.getClassLoader()) : type;
            after[number] = isNull ? null : argument(other, new Random(seed));
        }
    }

    private Object argument(Class<?> type, Random from) throws Exception {
        if (type == String.class) return texts.get(from.nextInt(texts.size()));
        if (type == boolean.class || type == Boolean.class) return from.nextBoolean();
        long number = numbers.get(from.nextInt(numbers.size()));
        if (type == long.class || type == Long.class) return number;
        if (type == int.class || type == Integer.class) return (int) number;
        return Objects.made(type, this, from);
    }

    /** Rows as arguments. */
    private static final class Objects {
        static Object made(Class<?> type, Compare compare, Random from) throws Exception {
            if (type.isRecord()) {
                var constructor = type.getDeclaredConstructors()[0];
                Object[] values = new Object[constructor.getParameterCount()];
                for (int number = 0; number < values.length; number++) values[number] = compare.argument(constructor.getParameterTypes()[number], from);
                return constructor.newInstance(values);
            }
            Object row = type.getDeclaredConstructor().newInstance();
            for (var field : type.getDeclaredFields()) {
                if (Modifier.isStatic(field.getModifiers())) continue;
                field.setAccessible(true);
                field.set(row, compare.argument(field.getType(), from));
            }
            return row;
        }
    }
}
