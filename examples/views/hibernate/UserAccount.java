package app.accounts;

import jakarta.persistence.Column;
import jakarta.persistence.Entity;
import jakarta.persistence.Id;
import jakarta.persistence.Table;

@Entity
@Table(name = "user_account")
public class UserAccount {

    @Id
    private Long id;

    @Column(nullable = false)
    private String login;

    @Column(name = "role_id", nullable = false)
    private Long roleId;

    private boolean enabled;

    public Long getId() {
        return id;
    }

    public String getLogin() {
        return login;
    }

    public Long getRoleId() {
        return roleId;
    }

    public boolean isEnabled() {
        return enabled;
    }
}
