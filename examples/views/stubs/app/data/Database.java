package app.data;

import java.sql.Connection;
import java.sql.PreparedStatement;
import java.sql.ResultSet;
import java.sql.SQLException;
import java.util.ArrayList;
import java.util.List;
import javax.sql.DataSource;

/** Queries over JDBC, with ?1 to ?9 as arguments by their numbers. Classes of rows are those that Rows fills. */
public class Database {
    private final DataSource source;

    public Database(DataSource source) {
        this.source = source;
    }

    public <T> List<T> query(Class<T> type, String text, Object... arguments) {
        List<Object> given = new ArrayList<>();
        try (Connection connection = source.getConnection();
             PreparedStatement select = connection.prepareStatement(numbered(text, arguments, given))) {
            for (int number = 1; number <= given.size(); number++) select.setObject(number, given.get(number - 1));
            List<T> rows = new ArrayList<>();
            try (ResultSet results = select.executeQuery()) {
                while (results.next()) rows.add(Rows.of(type).mapRow(results, rows.size()));
            }
            return rows;
        } catch (SQLException fault) {
            throw new IllegalStateException(text, fault);
        }
    }

    public long queryLong(String text, Object... arguments) {
        return query(Long.class, text, arguments).get(0);
    }

    public boolean queryBoolean(String text, Object... arguments) {
        return query(Boolean.class, text, arguments).get(0);
    }

    /** JDBC's ? has no number: arguments are put in the order in which they stand. What is in '..' is a text. */
    private static String numbered(String text, Object[] arguments, List<Object> given) {
        StringBuilder out = new StringBuilder();
        boolean quoted = false;
        for (int at = 0; at < text.length(); at++) {
            char character = text.charAt(at);
            quoted ^= character == '\'';
            out.append(character);
            if (character == '?' && !quoted) given.add(arguments[text.charAt(++at) - '1']);
        }
        return out.toString();
    }
}
