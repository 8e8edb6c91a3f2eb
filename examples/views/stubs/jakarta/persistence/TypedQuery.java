package jakarta.persistence;

import java.util.List;

public interface TypedQuery<T> extends Query {
    @Override
    TypedQuery<T> setParameter(int number, Object value);

    @Override
    List<T> getResultList();

    @Override
    T getSingleResult();
}
