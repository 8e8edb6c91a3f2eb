package org.springframework.jdbc.core;

import java.util.List;

public class JdbcTemplate {
    public <T> List<T> query(String text, RowMapper<T> mapper, Object... arguments) {
        throw new UnsupportedOperationException();
    }
}
