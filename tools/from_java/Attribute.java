import java.lang.reflect.AnnotatedElement;
import java.lang.reflect.Method;
import java.util.ArrayList;
import java.util.List;
import org.springframework.core.annotation.AnnotatedElementUtils;
import org.springframework.transaction.TransactionDefinition;
import org.springframework.transaction.annotation.AnnotationTransactionAttributeSource;
import org.springframework.transaction.annotation.Propagation;
import org.springframework.transaction.annotation.Transactional;
import org.springframework.transaction.interceptor.NoRollbackRuleAttribute;
import org.springframework.transaction.interceptor.RollbackRuleAttribute;
import org.springframework.transaction.interceptor.RuleBasedTransactionAttribute;
import org.springframework.transaction.interceptor.TransactionAttribute;
import org.springframework.util.ClassUtils;

/** A transaction attribute, as Spring's own source of attributes reads it, and what of it a scenario has no word for. */
record Attribute(String propagation, boolean readOnly, List<Rule> rules, List<String> leftOut) {

    /** A rollback rule: of a class, or of each class whose name contains a text. */
    record Rule(boolean rollback, String exception, boolean isPattern) {}

    /** Spring's source, which tells a class's attribute apart from its methods' to those that extend it. */
    private static final class Source extends AnnotationTransactionAttributeSource {
        TransactionAttribute ofClass(Class<?> type) {
            return findTransactionAttribute(type);
        }
    }

    private static final Source SOURCE = new Source();

    /**
     * The attribute that Spring gives a method of a bean: its own, else its class's, else that of the interface method by which
     * it is called; null where there is none.
     */
    static Attribute of(Method method, Class<?> bean) {
        TransactionAttribute found = SOURCE.getTransactionAttribute(method, bean);
        if (found != null) {
            return read(found, annotationOf(method, bean));
        }
        for (Class<?> type : ClassUtils.getAllInterfacesForClassAsSet(bean)) {
            Method called = ClassUtils.getMethodIfAvailable(type, method.getName(), method.getParameterTypes());
            found = called == null ? null : SOURCE.getTransactionAttribute(called, bean);
            if (found != null) {
                return read(found, annotationOf(called, type));
            }
        }
        return null;
    }

    static Attribute of(Class<?> bean) {
        TransactionAttribute found = SOURCE.ofClass(bean);
        return found == null ? null : read(found, annotationOf(bean));
    }

    private static Transactional annotationOf(AnnotatedElement... places) {
        for (AnnotatedElement place : places) {
            Transactional found = AnnotatedElementUtils.findMergedAnnotation(place, Transactional.class);
            if (found != null) {
                return found;
            }
        }
        return null;
    }

    private static Attribute read(TransactionAttribute found, Transactional annotation) {
        String propagation = Propagation.values()[found.getPropagationBehavior()].name().toLowerCase();
        List<String> leftOut = new ArrayList<>();
        if (found.getIsolationLevel() != TransactionDefinition.ISOLATION_DEFAULT) {
            leftOut.add("isolation" + (annotation == null ? "" : " " + annotation.isolation()));
        }
        if (found.getTimeout() != TransactionDefinition.TIMEOUT_DEFAULT) {
            leftOut.add("timeout " + found.getTimeout());
        }
        if (found.getQualifier() != null && !found.getQualifier().isEmpty()) {
            leftOut.add("transaction manager " + found.getQualifier());
        }
        return new Attribute(propagation, found.isReadOnly(), rulesOf(found, annotation), leftOut);
    }

    /**
     * The rules in Spring's order: rollbackFor, rollbackForClassName, noRollbackFor, noRollbackForClassName. Spring keeps the
     * names alone, so the annotation tells which of them are classes.
     */
    private static List<Rule> rulesOf(TransactionAttribute found, Transactional annotation) {
        List<Rule> rules = new ArrayList<>();
        if (!(found instanceof RuleBasedTransactionAttribute ruled)) {
            return rules;
        }
        int byClass = annotation == null ? 0 : annotation.rollbackFor().length;
        int keepsFrom = byClass + (annotation == null ? 0 : annotation.rollbackForClassName().length);
        int keepsByClass = keepsFrom + (annotation == null ? 0 : annotation.noRollbackFor().length);
        for (RollbackRuleAttribute rule : ruled.getRollbackRules()) {
            int at = rules.size();
            boolean isClass = at < byClass || at >= keepsFrom && at < keepsByClass;
            rules.add(new Rule(!(rule instanceof NoRollbackRuleAttribute), rule.getExceptionName(), !isClass));
        }
        return rules;
    }

    /** Whether two attributes are the same in a scenario. */
    boolean isLike(Attribute other) {
        return other != null && propagation.equals(other.propagation) && readOnly == other.readOnly && rules.equals(other.rules);
    }
}
