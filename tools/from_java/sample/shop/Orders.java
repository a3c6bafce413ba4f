package shop;

import org.springframework.context.ApplicationEventPublisher;
import org.springframework.stereotype.Service;
import org.springframework.transaction.annotation.Transactional;
import org.springframework.transaction.interceptor.TransactionAspectSupport;

@Service
@Transactional(noRollbackFor = OutOfStock.class, rollbackFor = Exception.class)
public class Orders {
    private final Stock stock;
    private final Audit audit;
    private final ApplicationEventPublisher publisher;

    public Orders(Stock stock, Audit audit, ApplicationEventPublisher publisher) {
        this.stock = stock;
        this.audit = audit;
        this.publisher = publisher;
    }

    public void place(int count) {
        audit.note("placed");
        try {
            stock.pick(count);
        } catch (IllegalStateException e) {
            later();
        }
        publisher.publishEvent(new Placed());
    }

    public void sellOut() throws SoldOut {
        throw new SoldOut();
    }

    @Transactional(readOnly = true)
    public void look() {
        TransactionAspectSupport.currentTransactionStatus().setRollbackOnly();
    }

    private void later() {
        audit.note("later");
    }
}
