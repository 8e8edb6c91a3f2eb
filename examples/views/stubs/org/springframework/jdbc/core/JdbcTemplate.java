package org.springframework.jdbc.core;

import java.sql.PreparedStatement;
import java.sql.ResultSet;
import java.sql.SQLException;
import java.util.ArrayList;
import java.util.List;
import javax.sql.DataSource;
import stand.Rows;

public class JdbcTemplate {
    private final DataSource source;

    public JdbcTemplate(DataSource source) {
        this.source = source;
    }

    public <T> List<T> query(String text, RowMapper<T> mapper, Object... arguments) {
        try (PreparedStatement select = prepared(text, arguments); ResultSet results = select.executeQuery()) {
            List<T> rows = new ArrayList<>();
            while (results.next()) rows.add(mapper.mapRow(results, rows.size()));
            return rows;
        } catch (SQLException fault) {
            throw new IllegalStateException(text, fault);
        }
    }

    public <T> T queryForObject(String text, Class<T> type, Object... arguments) {
        return query(text, (results, number) -> type.cast(Rows.value(results, 1, type)), arguments).get(0);
    }

    public int update(String text, Object... arguments) {
        try (PreparedStatement update = prepared(text, arguments)) {
            return update.executeUpdate();
        } catch (SQLException fault) {
            throw new IllegalStateException(text, fault);
        }
    }

    private PreparedStatement prepared(String text, Object[] arguments) throws SQLException {
        PreparedStatement statement = source.getConnection().prepareStatement(text);
        for (int number = 1; number <= arguments.length; number++) statement.setObject(number, arguments[number - 1]);
        return statement;
    }
}
