package shop;

import org.springframework.transaction.annotation.Transactional;

public interface Stock {
    void pick(int count);

    @Transactional(readOnly = true)
    int left();
}
