package billing;

import org.springframework.stereotype.Service;
import org.springframework.transaction.annotation.Transactional;

@Service("bills")
@Transactional(rollbackForClassName = "Exception", noRollbackFor = {Late.class, ArithmeticException.class})
public class Bills {
    public void remind() throws VeryLate {
        throw new VeryLate();
    }

    public void sum() {
        throw new ArithmeticException();
    }

    @Transactional(readOnly = true, noRollbackFor = VeryLate.class, rollbackFor = VeryLate.class)
    public void look() throws VeryLate {
        throw new VeryLate();
    }

    @Transactional
    public void close() {
        throw new AssertionError();
    }
}
