package app.tracker;

import app.data.Database;
import java.util.List;

public abstract class AbstractDao {

    private Database database;

    public Database getDatabase() {
        return database;
    }

    public void setDatabase(Database database) {
        this.database = database;
    }

    protected List<Issue> getIssues() {
        return getDatabase().query(Issue.class, "SELECT * FROM issue ORDER BY id");
    }
}
