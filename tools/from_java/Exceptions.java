import java.util.HashSet;
import java.util.LinkedHashMap;
import java.util.List;
import java.util.Map;
import java.util.Set;

/** The classes of exceptions that a scenario declares, each after the one above it. */
final class Exceptions {
    private static final Set<String> BUILT_IN = Set.of(
        "Throwable", "Exception", "Error", "RuntimeException", "IllegalStateException", "ArithmeticException",
        "NestedRuntimeException", "TransactionException", "CannotCreateTransactionException",
        "NestedTransactionNotSupportedException", "TransactionUsageException", "IllegalTransactionStateException",
        "NoTransactionException", "UnexpectedRollbackException", "DataAccessException", "CannotAcquireLockException",
        "CannotGetJdbcConnectionException");

    private final Map<Class<?>, String> names = new LinkedHashMap<>();
    private final Map<String, String> parents = new LinkedHashMap<>();
    private final Set<String> taken = new HashSet<>(BUILT_IN);

    /** The name of a class in the scenario. A class that isn't built in is declared, with those above it. */
    String nameOf(Class<?> type) {
        String known = names.get(type);
        if (known == null) {
            known = isBuiltIn(type) ? type.getSimpleName() : declared(type);
            names.put(type, known);
        }
        return known;
    }

    /** The names that were declared, each with its parent's. */
    Map<String, String> declarations() {
        return parents;
    }

    private static boolean isBuiltIn(Class<?> type) {
        String name = type.getName();
        boolean isOfLibrary = name.startsWith("java.lang.") || name.startsWith("org.springframework.");
        return isOfLibrary && BUILT_IN.contains(type.getSimpleName());
    }

    private String declared(Class<?> type) {
        String parent = nameOf(type.getSuperclass());
        String name = type.getName().replace('$', '.');
        boolean fits = name.length() <= 64 && name.split("\\.").length <= 8
            && List.of(name.split("\\.")).stream().allMatch(part -> part.matches("[A-Za-z_][A-Za-z0-9_]{0,31}"));
        if (!fits || !taken.add(name)) {
            name = Names.unique(type.getSimpleName(), taken);
        }
        parents.put(name, parent);
        return name;
    }
}
