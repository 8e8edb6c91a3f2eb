package app.bank;

import app.data.Database;
import java.util.ArrayList;
import java.util.List;
import org.slf4j.Logger;
import org.slf4j.LoggerFactory;
import org.springframework.beans.factory.annotation.Autowired;
import org.springframework.stereotype.Service;
import org.springframework.transaction.annotation.Transactional;

@Service
public class TransferService {

    private static final Logger LOG = LoggerFactory.getLogger(TransferService.class);

    @Autowired
    private AccountRepository accounts;

    @Autowired
    private TransferRepository transfers;

    @Autowired
    private Database db;

    @Transactional(readOnly = true)
    public List<Transfer> statement(Long accountId, Integer leastCents) {
        if (accountId == null) {
            throw new IllegalArgumentException("accountId");
        }
        if (leastCents == null || leastCents < 0) {
            LOG.warn("statement of {} wants {}", accountId, leastCents);
            return new ArrayList<>();
        }
        List<Transfer> lines = new ArrayList<>();
        for (Transfer transfer : transfers.findAll()) {
            if (accountId.equals(transfer.getFromId()) && transfer.getCents() >= leastCents) {
                lines.add(transfer);
            }
        }
        LOG.info("statement of {}: {} lines", accountId, lines.size());
        return lines;
    }

    /** What an account has sent and not got back. */
    @Transactional(readOnly = true)
    public long balance(Account account) {
        if (account == null || account.isClosed()) {
            return 0;
        }
        long sent = 0;
        for (Transfer transfer : transfers.findAll()) {
            if (transfer.getFromId().equals(account.getId())) {
                sent += transfer.getCents();
            }
        }
        long got = 0;
        for (Transfer transfer : transfers.findAll()) {
            if (transfer.getToId().equals(account.getId())) {
                got += transfer.getCents();
            }
        }
        LOG.debug("{} sent {}, got {}", account.getId(), sent, got);
        return got - sent;
    }

    @Transactional
    public int closeUnused(String branch) {
        int closed = 0;
        for (Account account : accounts.findAll()) {
            if (!account.getBranch().equals(branch)) {
                continue;
            }
            boolean used = false;
            for (Transfer transfer : transfers.findAll()) {
                if (transfer.getFromId().equals(account.getId()) || transfer.getToId().equals(account.getId())) {
                    used = true;
                    break;
                }
            }
            if (used) {
                continue;
            }
            try {
                accounts.close(account.getId());
                closed++;
            } catch (IllegalStateException e) {
                LOG.error("can't close {}", account.getId(), e);
            }
        }
        return closed;
    }

    @Transactional(readOnly = true)
    public int unseen(Long accountId, Boolean approved) {
        int count = 0;
        for (Transfer transfer : transfers.findAll()) {
            if (approved != null && transfer.isApproved() != approved) {
                continue;
            }
            if (transfer.getToId().equals(accountId)) {
                count++;
            }
        }
        return count;
    }
}
