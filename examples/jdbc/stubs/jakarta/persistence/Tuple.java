package jakarta.persistence;

import java.util.List;

public interface Tuple {
    Object get(int at);

    Object get(String alias);

    List<TupleElement<?>> getElements();
}
