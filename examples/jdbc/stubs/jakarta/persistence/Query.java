package jakarta.persistence;

import java.util.List;

public interface Query {
    Query setParameter(int position, Object value);

    @SuppressWarnings("rawtypes")
    List getResultList();
}
