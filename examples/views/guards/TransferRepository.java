package app.bank;

import java.util.List;
import org.springframework.data.jpa.repository.JpaRepository;
import org.springframework.data.jpa.repository.Query;

public interface TransferRepository extends JpaRepository<Transfer, Long> {

    /** All transfers by their keys. */
    @Override
    @Query("select t from Transfer t order by t.id")
    List<Transfer> findAll();
}
