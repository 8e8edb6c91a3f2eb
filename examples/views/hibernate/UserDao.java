package app.accounts;

import java.util.ArrayList;
import java.util.Collections;
import java.util.Comparator;
import java.util.HashSet;
import java.util.Iterator;
import java.util.List;
import java.util.Set;
import java.util.TreeSet;
import org.hibernate.Session;
import org.hibernate.SessionFactory;

public class UserDao {

    private SessionFactory sessionFactory;

    public void setSessionFactory(SessionFactory sessionFactory) {
        this.sessionFactory = sessionFactory;
    }

    private Session session() {
        return sessionFactory.getCurrentSession();
    }

    @SuppressWarnings("unchecked")
    public List<UserAccount> enabledOf(Long roleId) {
        List<UserAccount> users = session().createQuery("from UserAccount order by id").list();
        List<UserAccount> found = new ArrayList<UserAccount>();
        Iterator<UserAccount> it = users.iterator();
        while (it.hasNext()) {
            UserAccount user = it.next();
            if (user.isEnabled() && user.getRoleId().equals(roleId)) {
                found.add(user);
            }
        }
        return found;
    }

    @SuppressWarnings("unchecked")
    public List<UserAccount> byLogin(long role) {
        List<UserAccount> users = session().createQuery("from UserAccount order by id").list();
        List<UserAccount> out = new ArrayList<UserAccount>();
        for (int i = 0; i < users.size(); i++) {
            UserAccount user = users.get(i);
            if (user.getRoleId() == role) {
                out.add(user);
            }
        }
        Collections.sort(out, Comparator.comparing(UserAccount::getLogin));
        return out;
    }

    @SuppressWarnings("unchecked")
    public List<String> rolesInUse() {
        List<UserAccount> users = session().createQuery("from UserAccount order by id").list();
        List<Role> roles = session().createQuery("from Role order by id").list();
        Set<Long> used = new HashSet<Long>();
        for (UserAccount user : users) {
            used.add(user.getRoleId());
        }
        List<String> names = new ArrayList<String>();
        for (Role role : roles) {
            if (used.contains(role.getId())) {
                names.add(role.getName());
            }
        }
        return names;
    }

    @SuppressWarnings("unchecked")
    public int disabledOf(long role) {
        List<UserAccount> users = session().createQuery("from UserAccount order by id").list();
        int count = 0;
        for (Iterator<UserAccount> it = users.iterator(); it.hasNext(); ) {
            UserAccount user = it.next();
            if (user.getRoleId() != role || user.isEnabled()) {
                continue;
            }
            count++;
        }
        return count;
    }

    @SuppressWarnings("unchecked")
    public Set<String> logins() {
        Set<String> logins = new TreeSet<String>();
        List<UserAccount> users = session().createQuery("from UserAccount order by id").list();
        for (UserAccount user : users) {
            logins.add(user.getLogin());
        }
        return logins;
    }
}
