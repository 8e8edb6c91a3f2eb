package app.tracker;

import java.util.ArrayList;
import java.util.Collections;
import java.util.Comparator;
import java.util.List;
import java.util.Objects;

public class IssueDao extends AbstractDao {

    private ProjectDao projectDao;

    public ProjectDao getProjectDao() {
        return projectDao;
    }

    public void setProjectDao(ProjectDao projectDao) {
        this.projectDao = projectDao;
    }

    public List<Issue> getIssuesOfProject(Integer projectId) {
        List<Issue> result = new ArrayList<Issue>();
        List<Issue> issues = getIssues();
        for (int i = 0; i < issues.size(); i++) {
            Issue issue = issues.get(i);
            if (issue.getProjectId().intValue() == projectId.intValue()) {
                result.add(issue);
            }
        }
        Collections.sort(result, Comparator.comparing(Issue::getSeverity).thenComparing(Issue::getId));
        return result;
    }

    public Integer getOpenCount(Project project) {
        Integer count = 0;
        for (Issue issue : getIssues()) {
            if (Objects.equals(issue.getProjectId(), project.getId()) && issue.getStatus() != Status.CLOSED) {
                count++;
            }
        }
        return count;
    }

    public List<Project> getProjectsOf(Long managerId) {
        List<Project> result = new ArrayList<Project>();
        for (Project project : getProjectDao().getProjects()) {
            Long manager = project.getManagerId();
            if (manager != null && manager.equals(managerId)) {
                result.add(project);
            }
        }
        return result;
    }

    public List<String> getTitles(Long ownerId) {
        List<String> titles = new ArrayList<String>();
        for (Issue issue : getIssues()) {
            if (issue.getOwnerId() != null && issue.getOwnerId().equals(ownerId)) {
                titles.add(issue.getTitle());
            }
        }
        return titles;
    }

    public List<Issue> getSame(Issue other) {
        List<Issue> result = new ArrayList<Issue>();
        for (Issue issue : getIssues()) {
            if (issue.getOwnerId() == other.getOwnerId()) {
                result.add(issue);
            }
        }
        return result;
    }

    public Issue getWorst() {
        Issue worst = null;
        for (Issue issue : getIssues()) {
            if (worst == null || issue.getSeverity() > worst.getSeverity()) {
                worst = issue;
            }
        }
        return worst;
    }
}
