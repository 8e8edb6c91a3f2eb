package app.billing;

import jakarta.persistence.Column;
import jakarta.persistence.Entity;
import jakarta.persistence.Id;
import jakarta.persistence.Table;

@Entity
@Table(name = "invoice")
public class Invoice {

    @Id
    private long id;

    @Column(name = "customer_id")
    private long customerId;

    @Column(nullable = false)
    private String number;

    @Column(name = "amount_cents")
    private long amountCents;

    private boolean paid;

    @Column(name = "due_day")
    private long dueDay;

    public long getId() {
        return id;
    }

    public long getCustomerId() {
        return customerId;
    }

    public String getNumber() {
        return number;
    }

    public long getAmountCents() {
        return amountCents;
    }

    public boolean isPaid() {
        return paid;
    }

    public void setPaid(boolean paid) {
        this.paid = paid;
    }

    public long getDueDay() {
        return dueDay;
    }
}
