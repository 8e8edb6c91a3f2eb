package jakarta.persistence;

import java.util.List;

@SuppressWarnings("rawtypes")
public interface Query {
    Query setParameter(int number, Object value);

    List getResultList();

    Object getSingleResult();
}
