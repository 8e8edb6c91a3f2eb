package app.billing;

import jakarta.persistence.Column;
import jakarta.persistence.Entity;
import jakarta.persistence.Id;
import jakarta.persistence.Table;

@Entity
@Table(name = "payment_line")
public class PaymentLine {

    @Id
    private long id;

    @Column(name = "payment_id")
    private long paymentId;

    @Column(name = "invoice_id")
    private long invoiceId;

    public long getId() {
        return id;
    }

    public long getPaymentId() {
        return paymentId;
    }

    public long getInvoiceId() {
        return invoiceId;
    }
}
