package jakarta.persistence;

public interface EntityManager {
    <T> TypedQuery<T> createQuery(String text, Class<T> type);

    Query createNativeQuery(String text);

    @SuppressWarnings("rawtypes")
    Query createNativeQuery(String text, Class type);
}
