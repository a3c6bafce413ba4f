package shop;

import org.springframework.stereotype.Repository;
import org.springframework.transaction.annotation.Propagation;
import org.springframework.transaction.annotation.Transactional;

@Repository("stock")
public class Shelves implements Stock {
    private int left = 2;

    @Override
    @Transactional(propagation = Propagation.NESTED)
    public void pick(int count) {
        if (left < count) {
            throw new IllegalStateException("too few");
        }
        left -= count;
    }

    @Override
    public int left() {
        return left;
    }
}
