package app.tracker;

import jakarta.persistence.Column;
import jakarta.persistence.Entity;
import jakarta.persistence.Id;
import jakarta.persistence.Table;

@Entity
@Table(name = "project")
public class Project {

    @Id
    private Integer id;

    @Column(name = "manager_id")
    private Long managerId;

    public Integer getId() {
        return id;
    }

    public Long getManagerId() {
        return managerId;
    }
}
