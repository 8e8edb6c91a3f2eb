package app.data;

import org.springframework.jdbc.core.RowMapper;

/** Mappers of rows: a class with fields, a record, or one number, truth value or text. */
public final class Rows {
    private Rows() {
    }

    public static <T> RowMapper<T> of(Class<T> type) {
        return (results, number) -> stand.Rows.isScalar(type) ? type.cast(stand.Rows.value(results, 1, type)) : stand.Rows.row(results, type);
    }
}
