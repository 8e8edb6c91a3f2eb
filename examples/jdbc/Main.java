import java.nio.file.Files;
import java.nio.file.Path;
import java.sql.Connection;
import java.sql.DriverManager;
import java.sql.Statement;
import java.util.Collection;

/** Makes the tables of tables.sql on the connection that is named, and prints what each method of Report gives: Main URL TABLES. */
public class Main {
    public static void main(String[] words) throws Exception {
        try (Connection connection = DriverManager.getConnection(words[0])) {
            String text = Files.readString(Path.of(words[1])).replaceAll("(?m)^--.*$", "");
            try (Statement statement = connection.createStatement()) {
                for (String each : text.split(";\\s*\n")) if (!each.isBlank()) statement.execute(each);
            }
            db.use(connection);
            Report report = new Report();
            show("ofRole", report.ofRole(2));
            show("labels", report.labels());
            show("names", report.names());
            show("firstByName", report.firstByName());
            show("firstPays", report.firstPays());
            show("paidAbove", report.paidAbove(100));
            show("total", report.total());
            show("oldest", report.oldest());
            show("allGrown", report.allGrown());
            show("named", report.named("ann"));
            System.err.println(db.rows() + " rows were read");
        }
    }

    private static void show(String name, Object value) throws ReflectiveOperationException {
        System.out.print(name);
        for (Object each : value instanceof Collection<?> ? (Collection<?>) value : java.util.List.of(value)) System.out.print(" " + shown(each));
        System.out.println();
    }

    private static String shown(Object value) throws ReflectiveOperationException {
        if (value.getClass().getName().startsWith("java.lang.")) return value.toString();
        StringBuilder text = new StringBuilder(value.getClass().getSimpleName());
        for (var field : value.getClass().getFields()) text.append(':').append(field.get(value));
        return text.toString();
    }
}
