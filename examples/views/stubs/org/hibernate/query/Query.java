package org.hibernate.query;

import java.util.List;

public interface Query<T> {
    Query<T> setParameter(int number, Object value);

    List<T> list();

    T uniqueResult();
}
