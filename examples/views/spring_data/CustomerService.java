package app.customers;

import jakarta.persistence.EntityManager;
import java.util.ArrayList;
import java.util.LinkedHashMap;
import java.util.List;
import java.util.Map;
import java.util.Optional;
import org.slf4j.Logger;
import org.slf4j.LoggerFactory;
import org.springframework.stereotype.Service;
import org.springframework.transaction.annotation.Transactional;

/** What the account pages ask about customers and their orders. */
@Service
@Transactional(readOnly = true)
public class CustomerService {

    private static final Logger log = LoggerFactory.getLogger(CustomerService.class);

    /** From here on an order is looked at by hand. */
    private static final long LARGE_CENTS = 50000;

    private final CustomerRepository customers;
    private final OrderRepository orders;
    private final EntityManager em;

    public CustomerService(CustomerRepository customers, OrderRepository orders, EntityManager em) {
        this.customers = customers;
        this.orders = orders;
        this.em = em;
    }

    public List<CustomerOrder> openOrders(Long customerId) {
        List<CustomerOrder> open = new ArrayList<>();
        for (CustomerOrder order : orders.findAllByOrderById()) {
            if (order.getCustomerId().equals(customerId) && order.getStatus().equals("OPEN")) {
                open.add(order);
            }
        }
        log.debug("{} open orders of customer {}", open.size(), customerId);
        return open;
    }

    public long turnover(Long customerId) {
        long cents = 0;
        for (CustomerOrder order : orders.findAllByOrderById()) {
            if (order.getCustomerId().equals(customerId) && !order.getStatus().equals("CANCELLED")) {
                cents += order.getTotalCents();
            }
        }
        return cents;
    }

    public boolean isWatched(Long customerId) {
        Optional<Customer> found = customers.findById(customerId);
        if (found.isEmpty()) {
            log.warn("no customer {}", customerId);
            return false;
        }
        for (CustomerOrder order : orders.findAllByOrderById()) {
            if (order.getCustomerId().equals(customerId) && order.getTotalCents() > LARGE_CENTS) {
                return true;
            }
        }
        return false;
    }

    public List<String> buyersIn(String country) {
        List<String> names = new ArrayList<>();
        for (Customer customer : customers.findAllByOrderById()) {
            if (!customer.getCountry().equals(country)) {
                continue;
            }
            boolean bought = false;
            for (CustomerOrder order : orders.findAllByOrderById()) {
                if (order.getCustomerId().equals(customer.getId())) {
                    bought = true;
                }
            }
            if (bought) {
                names.add(customer.getName());
            }
        }
        return names;
    }

    public Map<String, Integer> perCountry() {
        Map<String, Integer> counts = new LinkedHashMap<>();
        for (Customer customer : customers.findAllByOrderById()) {
            counts.merge(customer.getCountry(), 1, Integer::sum);
        }
        return counts;
    }

    public List<String> namesLike(String part) {
        String wanted = part.trim().toLowerCase();
        List<String> names = new ArrayList<>();
        for (Customer customer : customers.findAllByOrderById()) {
            if (customer.getName().toLowerCase().contains(wanted)) {
                names.add(customer.getName());
            }
        }
        return names;
    }
}
