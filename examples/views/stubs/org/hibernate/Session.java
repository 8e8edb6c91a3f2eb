package org.hibernate;

import org.hibernate.query.NativeQuery;
import org.hibernate.query.Query;

@SuppressWarnings("rawtypes")
public interface Session {
    Query createQuery(String text);

    NativeQuery createNativeQuery(String text);

    <T> NativeQuery<T> createNativeQuery(String text, Class<T> type);
}
