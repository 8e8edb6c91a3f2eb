package org.hibernate.query;

public interface NativeQuery<T> extends Query<T> {
    @Override
    NativeQuery<T> setParameter(int number, Object value);
}
