import java.beans.Introspector;
import java.lang.reflect.Field;
import java.lang.reflect.Method;
import java.lang.reflect.Modifier;
import java.util.LinkedHashMap;
import java.util.Map;
import org.springframework.core.annotation.AnnotationUtils;
import org.springframework.stereotype.Component;
import org.springframework.transaction.annotation.AnnotationTransactionAttributeSource;
import org.springframework.transaction.interceptor.TransactionAttribute;
import org.springframework.util.ClassUtils;

/**
 * Prints what Spring itself decides: Decisions CLASS.. For each method of each class that is a bean: whether it has an
 * attribute, and for each class of exceptions among the words, and of Spring's own, whether it rolls back.
 */
public final class Decisions {
    private static final String[] OF_LIBRARIES = {
        "java.lang.Throwable", "java.lang.Exception", "java.lang.Error", "java.lang.RuntimeException",
        "java.lang.IllegalStateException", "java.lang.ArithmeticException", "java.lang.AssertionError",
        "java.lang.IllegalArgumentException", "org.springframework.transaction.CannotCreateTransactionException",
        "org.springframework.transaction.NestedTransactionNotSupportedException",
        "org.springframework.transaction.TransactionUsageException",
        "org.springframework.transaction.IllegalTransactionStateException",
        "org.springframework.transaction.NoTransactionException",
        "org.springframework.transaction.UnexpectedRollbackException", "org.springframework.dao.CannotAcquireLockException",
    };

    public static void main(String[] names) throws ReflectiveOperationException {
        Map<String, Throwable> exceptions = new LinkedHashMap<>();
        for (String name : OF_LIBRARIES) {
            exceptions.put(name, made(Class.forName(name)));
        }
        for (String name : names) {
            if (Throwable.class.isAssignableFrom(Class.forName(name))) {
                exceptions.put(name, made(Class.forName(name)));
            }
        }
        for (String name : names) {
            Class<?> type = Class.forName(name);
            if (AnnotationUtils.findAnnotation(type, Component.class) != null && !type.isInterface()) {
                print(type, exceptions);
            }
        }
    }

    private static void print(Class<?> bean, Map<String, Throwable> exceptions) {
        AnnotationTransactionAttributeSource source = new AnnotationTransactionAttributeSource();
        for (Method method : bean.getDeclaredMethods()) {
            if (method.isSynthetic()) {
                continue;
            }
            String name = nameOf(bean) + "." + method.getName();
            TransactionAttribute attribute = attributeOf(source, method, bean);
            if (attribute == null) {
                System.out.println((Modifier.isPrivate(method.getModifiers()) ? "private " : "none ") + name);
                continue;
            }
            exceptions.forEach((thrown, exception) ->
                System.out.println("rules " + name + " " + thrown + (attribute.rollbackOn(exception) ? " rollback" : " keep")));
        }
    }

    /** The attribute of a method, by whichever interface it is called, or else by its class. */
    private static TransactionAttribute attributeOf(AnnotationTransactionAttributeSource source, Method method, Class<?> bean) {
        for (Class<?> type : bean.getInterfaces()) {
            Method called = ClassUtils.getMethodIfAvailable(type, method.getName(), method.getParameterTypes());
            if (called != null) {
                return source.getTransactionAttribute(called, bean);
            }
        }
        return source.getTransactionAttribute(method, bean);
    }

    private static String nameOf(Class<?> bean) {
        for (var annotation : bean.getAnnotations()) {
            if (AnnotationUtils.getValue(annotation) instanceof String name && !name.isEmpty()) {
                return name;
            }
        }
        return Introspector.decapitalize(bean.getSimpleName());
    }

    /** An exception of a class, without a constructor of it. */
    private static Throwable made(Class<?> type) throws ReflectiveOperationException {
        Field unsafe = sun.misc.Unsafe.class.getDeclaredField("theUnsafe");
        unsafe.setAccessible(true);
        return (Throwable) ((sun.misc.Unsafe) unsafe.get(null)).allocateInstance(type);
    }
}
