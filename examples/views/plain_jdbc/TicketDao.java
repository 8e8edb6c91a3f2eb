package app.support;

import app.data.Database;
import java.sql.Connection;
import java.sql.PreparedStatement;
import java.sql.ResultSet;
import java.sql.SQLException;
import java.util.ArrayList;
import java.util.List;
import javax.sql.DataSource;

/** Tickets, by JDBC alone. */
public class TicketDao {

    private final DataSource source;
    private final Database db;

    public TicketDao(DataSource source) {
        this.source = source;
        this.db = new Database(source);
    }

    /** A row of the table ticket. */
    public static class Ticket {
        public long id;
        public long queueId;
        public String priority;
        public boolean closed;
        public int minutes;
    }

    private List<Ticket> loadAll() {
        try (Connection connection = source.getConnection();
             PreparedStatement select = connection.prepareStatement("SELECT * FROM ticket ORDER BY id");
             ResultSet rows = select.executeQuery()) {
            List<Ticket> tickets = new ArrayList<>();
            while (rows.next()) {
                Ticket ticket = new Ticket();
                ticket.id = rows.getLong("id");
                ticket.queueId = rows.getLong("queue_id");
                ticket.priority = rows.getString("priority");
                ticket.closed = rows.getBoolean("closed");
                ticket.minutes = rows.getInt("minutes");
                tickets.add(ticket);
            }
            return tickets;
        } catch (SQLException e) {
            throw new IllegalStateException("can't load tickets", e);
        }
    }

    public List<Ticket> open(long queue) {
        List<Ticket> open = new ArrayList<>();
        for (Ticket t : loadAll()) {
            if (t.queueId == queue && !t.closed) {
                open.add(t);
            }
        }
        return open;
    }

    public String load(long queue) {
        int open = 0;
        int minutes = 0;
        for (Ticket t : loadAll()) {
            if (t.queueId == queue) {
                if (!t.closed) {
                    open++;
                }
            }
        }
        for (Ticket t : loadAll()) {
            if (t.queueId == queue && t.closed) {
                minutes += t.minutes;
            }
        }
        return "queue " + queue + ": " + open + " open, " + minutes + " minutes so far";
    }

    public boolean isIdle(long queue) {
        boolean idle = true;
        for (Ticket t : loadAll()) {
            if (t.queueId == queue && !t.closed) {
                idle = false;
                break;
            }
        }
        return idle;
    }

    public int closeShort(int most) {
        int closed = 0;
        for (Ticket t : loadAll()) {
            if (!t.closed && t.minutes < most) {
                close(t.id);
                closed++;
            }
        }
        return closed;
    }

    public int close(long id) {
        try (Connection connection = source.getConnection();
             PreparedStatement update = connection.prepareStatement("UPDATE ticket SET closed = TRUE WHERE id = ? AND closed = FALSE")) {
            update.setLong(1, id);
            return update.executeUpdate();
        } catch (SQLException e) {
            throw new IllegalStateException("can't close " + id, e);
        }
    }

    /** Urgent ones first, then those that took longest. */
    public List<Long> queueOf(long queue) {
        List<Ticket> urgent = new ArrayList<>();
        List<Ticket> others = new ArrayList<>();
        for (Ticket t : loadAll()) {
            if (t.queueId == queue && !t.closed) {
                if (t.priority.equals("urgent")) {
                    urgent.add(t);
                } else {
                    others.add(t);
                }
            }
        }
        others.sort((a, b) -> b.minutes - a.minutes);
        List<Long> ids = new ArrayList<>();
        for (Ticket t : urgent) {
            ids.add(t.id);
        }
        for (Ticket t : others) {
            ids.add(t.id);
        }
        return ids;
    }
}
