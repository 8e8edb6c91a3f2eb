package app.shop;

import app.data.Rows;
import java.util.ArrayList;
import java.util.HashSet;
import java.util.LinkedHashSet;
import java.util.List;
import java.util.Set;
import org.slf4j.Logger;
import org.slf4j.LoggerFactory;
import org.springframework.jdbc.core.JdbcTemplate;
import org.springframework.jdbc.core.RowMapper;
import org.springframework.stereotype.Repository;

@Repository
public class ProductCatalog {

    private static final Logger LOG = LoggerFactory.getLogger(ProductCatalog.class);

    private static final RowMapper<Product> PRODUCT = (rs, n) -> {
        Product p = new Product();
        p.id = rs.getLong("id");
        p.sku = rs.getString("sku");
        p.shelf = rs.getInt("shelf");
        p.priceCents = rs.getLong("price_cents");
        p.stock = rs.getInt("stock");
        p.active = rs.getBoolean("active");
        return p;
    };

    private static final RowMapper<Reservation> RESERVATION = (rs, n) -> {
        Reservation r = new Reservation();
        r.id = rs.getLong("id");
        r.productId = rs.getLong("product_id");
        r.pieces = rs.getInt("pieces");
        return r;
    };

    private final JdbcTemplate jdbc;

    public ProductCatalog(JdbcTemplate jdbc) {
        this.jdbc = jdbc;
    }

    public List<Product> cheaperThan(long cents) {
        List<Product> cheap = new ArrayList<>();
        for (Product p : jdbc.query("select * from product order by id", PRODUCT)) {
            if (p.active && p.stock > 0 && p.priceCents < cents) {
                cheap.add(p);
            }
        }
        return cheap;
    }

    /** Pieces of a product that are promised to somebody. */
    public int reserved(long productId) {
        int pieces = 0;
        for (Reservation r : jdbc.query("select * from reservation order by id", RESERVATION)) {
            if (r.productId == productId) {
                pieces += r.pieces;
            }
        }
        return pieces;
    }

    public Set<Integer> shelves() {
        List<Product> products = jdbc.query("select * from product order by id", PRODUCT);
        Set<Integer> shelves = new LinkedHashSet<>();
        for (Product p : products) {
            if (p.active) {
                shelves.add(p.shelf);
            }
        }
        return shelves;
    }

    public List<String> oversold() {
        List<String> skus = new ArrayList<>();
        for (Product p : jdbc.query("select * from product order by id", PRODUCT)) {
            int promised = 0;
            for (Reservation r : jdbc.query("select * from reservation order by id", RESERVATION)) {
                if (r.productId == p.id) {
                    promised += r.pieces;
                }
            }
            if (promised > p.stock) {
                LOG.warn("{}: {} promised, {} there", p.sku, promised, p.stock);
                skus.add(p.sku);
            }
        }
        return skus;
    }

    public int retire(long cents) {
        Set<Long> kept = new HashSet<>();
        for (Reservation r : jdbc.query("select * from reservation order by id", RESERVATION)) {
            kept.add(r.productId);
        }
        int retired = 0;
        for (Product p : jdbc.query("select * from product order by id", PRODUCT)) {
            if (p.active && p.priceCents < cents && !kept.contains(p.id)) {
                retired += jdbc.update("update product set active = false where id = ?", p.id);
            }
        }
        return retired;
    }

    public List<Product> firstOfShelf(int shelf, int most) {
        List<Product> first = new ArrayList<>();
        for (Product p : jdbc.query("select * from product order by id", PRODUCT)) {
            if (first.size() == most) {
                break;
            }
            if (p.shelf == shelf) {
                first.add(p);
            }
        }
        return first;
    }
}
