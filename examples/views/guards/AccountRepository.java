package app.bank;

import java.util.List;
import org.springframework.data.jpa.repository.JpaRepository;
import org.springframework.data.jpa.repository.Modifying;
import org.springframework.data.jpa.repository.Query;

public interface AccountRepository extends JpaRepository<Account, Long> {

    /** All accounts by their keys. */
    @Override
    @Query("select a from Account a order by a.id")
    List<Account> findAll();

    @Modifying
    @Query(value = "update account set closed = true where id = ?1", nativeQuery = true)
    int close(Long id);
}
