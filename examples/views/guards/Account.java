package app.bank;

import jakarta.persistence.Column;
import jakarta.persistence.Entity;
import jakarta.persistence.Id;
import jakarta.persistence.Table;

@Entity
@Table(name = "account")
public class Account {

    @Id
    private Long id;

    @Column(nullable = false)
    private String branch;

    private boolean closed;

    public Long getId() {
        return id;
    }

    public String getBranch() {
        return branch;
    }

    public boolean isClosed() {
        return closed;
    }
}
