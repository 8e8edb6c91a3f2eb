package app.tracker;

import java.util.List;

public class ProjectDao extends AbstractDao {

    public List<Project> getProjects() {
        return getDatabase().query(Project.class, "SELECT * FROM project ORDER BY id");
    }
}
