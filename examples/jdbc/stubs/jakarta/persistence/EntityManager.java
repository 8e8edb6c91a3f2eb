package jakarta.persistence;

public interface EntityManager {
    Query createNativeQuery(String text, Class<?> result);
}
