package org.springframework.data.jpa.repository;

import java.util.List;
import java.util.Optional;

public interface JpaRepository<T, K> {
    List<T> findAll();

    Optional<T> findById(K id);
}
