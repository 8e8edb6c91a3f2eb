package app.tracker;

import jakarta.persistence.Column;
import jakarta.persistence.Entity;
import jakarta.persistence.Id;
import jakarta.persistence.Table;

@Entity
@Table(name = "issue")
public class Issue {

    @Id
    private Long id;

    @Column(name = "project_id", nullable = false)
    private Integer projectId;

    @Column(nullable = false)
    private Integer severity;

    private int status;

    @Column(name = "owner_id", nullable = false)
    private Long ownerId;

    @Column(nullable = false)
    private String title;

    public Long getId() {
        return id;
    }

    public Integer getProjectId() {
        return projectId;
    }

    public Integer getSeverity() {
        return severity;
    }

    public int getStatus() {
        return status;
    }

    public Long getOwnerId() {
        return ownerId;
    }

    public String getTitle() {
        return title;
    }
}
