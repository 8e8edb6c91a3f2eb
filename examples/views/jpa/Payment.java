package app.billing;

import jakarta.persistence.Column;
import jakarta.persistence.Entity;
import jakarta.persistence.Id;
import jakarta.persistence.Table;

@Entity
@Table(name = "payment")
public class Payment {

    @Id
    private long id;

    @Column(name = "paid_on")
    private long paidOn;

    public long getId() {
        return id;
    }

    public long getPaidOn() {
        return paidOn;
    }
}
