package app.billing;

import jakarta.persistence.EntityManager;
import jakarta.persistence.PersistenceContext;
import java.math.BigDecimal;
import java.util.ArrayList;
import java.util.Collection;
import java.util.Comparator;
import java.util.LinkedHashSet;
import java.util.List;
import java.util.Set;
import org.springframework.stereotype.Repository;

@Repository
public class InvoiceDao {

    @PersistenceContext
    private EntityManager em;

    /** What has to be paid and isn't, the oldest first. */
    public List<Invoice> overdue(long today) {
        List<Invoice> all = em.createQuery("select i from Invoice i order by i.id", Invoice.class).getResultList();
        List<Invoice> overdue = new ArrayList<>();
        for (Invoice invoice : all) {
            if (!invoice.isPaid() && invoice.getDueDay() < today) {
                overdue.add(invoice);
            }
        }
        overdue.sort(Comparator.comparingLong(Invoice::getDueDay));
        return overdue;
    }

    /** Customers with an open invoice, each once. */
    public Collection<Long> debtors() {
        final Set<Long> debtors = new LinkedHashSet<>();
        for (Invoice invoice : em.createQuery("select i from Invoice i order by i.id", Invoice.class).getResultList()) {
            if (!invoice.isPaid()) {
                debtors.add(invoice.getCustomerId());
            }
        }
        return debtors;
    }

    public List<String> numbersOf(Payment payment) {
        List<String> numbers = new ArrayList<>();
        for (PaymentLine line : em.createQuery("select l from PaymentLine l order by l.id", PaymentLine.class).getResultList()) {
            for (Invoice invoice : em.createQuery("select i from Invoice i order by i.id", Invoice.class).getResultList()) {
                if (line.getPaymentId() == payment.getId() && invoice.getId() == line.getInvoiceId()) {
                    numbers.add(invoice.getNumber());
                }
            }
        }
        return numbers;
    }

    /** The greatest amount that is open, 0 where there is none. */
    public long largest() {
        long largest = 0;
        for (Invoice invoice : em.createQuery("select i from Invoice i order by i.id", Invoice.class).getResultList()) {
            if (!invoice.isPaid()) {
                largest = Math.max(largest, invoice.getAmountCents());
            }
        }
        return largest;
    }

    public BigDecimal owed(long customerId) {
        BigDecimal owed = BigDecimal.ZERO;
        for (Invoice invoice : em.createQuery("select i from Invoice i order by i.id", Invoice.class).getResultList()) {
            if (invoice.getCustomerId() == customerId && !invoice.isPaid()) {
                owed = owed.add(BigDecimal.valueOf(invoice.getAmountCents(), 2));
            }
        }
        return owed;
    }

    public int settle(long customerId) {
        int settled = 0;
        for (Invoice invoice : em.createQuery("select i from Invoice i order by i.id", Invoice.class).getResultList()) {
            if (invoice.getCustomerId() == customerId && !invoice.isPaid()) {
                invoice.setPaid(true);
                settled++;
            }
        }
        return settled;
    }
}
