import java.beans.Introspector;
import java.util.ArrayList;
import java.util.HashSet;
import java.util.LinkedHashMap;
import java.util.LinkedHashSet;
import java.util.List;
import java.util.Map;
import java.util.Set;

/** The text of a scenario's skeleton. What has no form in a scenario is left out, and a comment says so. */
final class Skeleton {
    private static final int MOST_CALLS = 64;

    private final Application application;
    private final Exceptions exceptions = new Exceptions();
    private final Map<Class<?>, String> events = new LinkedHashMap<>();
    private final Set<Application.BeanMethod> called = new LinkedHashSet<>();
    private final StringBuilder parts = new StringBuilder();

    Skeleton(Application application) {
        this.application = application;
        Set<String> names = new HashSet<>();
        for (Class<?> event : application.events) {
            events.put(event, Names.unique(Introspector.decapitalize(event.getSimpleName()), names));
        }
    }

    String text() {
        for (Application.Bean bean : application.beans) {
            writeBean(bean);
        }
        for (Application.Bean bean : application.beans) {
            for (Application.BeanMethod method : bean.methods()) {
                if (!isListenerAlone(method)) {
                    writeMethod(bean, method);
                }
            }
        }
        writeListeners();
        writeClient();
        return head() + parts;
    }

    private String head() {
        StringBuilder head = new StringBuilder("# A skeleton: what the methods do with rows is still to be written.\n");
        for (String left : application.leftOut) {
            head.append("# left out: ").append(left).append('\n');
        }
        if (!events.isEmpty()) {
            head.append("\nevents = [").append(String.join(", ", events.values().stream().map(Skeleton::quoted).toList())).append("]\n");
        }
        exceptions.declarations().forEach((name, parent) ->
            head.append("\n[[classes]]\nname = ").append(quoted(name)).append("\nparent = ").append(quoted(parent)).append('\n'));
        return head.toString();
    }

    private void writeBean(Application.Bean bean) {
        parts.append('\n');
        if (bean.attribute() != null) {
            writeLeftOut(bean.attribute());
        }
        parts.append("[[beans]]\nname = ").append(quoted(bean.name())).append('\n');
        if (bean.attribute() != null) {
            parts.append("tx = ").append(attributeText(bean.attribute(), bean.type())).append('\n');
        }
    }

    private void writeLeftOut(Attribute attribute) {
        for (String left : attribute.leftOut()) {
            parts.append("# left out: ").append(left).append('\n');
        }
    }

    private void writeMethod(Application.Bean bean, Application.BeanMethod method) {
        List<String> comments = new ArrayList<>();
        List<String> body = bodyOf(bean, method, comments);
        parts.append('\n');
        boolean isOwn = method.attribute() != null && !method.attribute().isLike(bean.attribute());
        if (isOwn) {
            writeLeftOut(method.attribute());
        }
        comments.forEach(comment -> parts.append("# ").append(comment).append('\n'));
        parts.append("[[methods]]\nbean = ").append(quoted(bean.name())).append("\nname = ").append(quoted(method.name())).append('\n');
        if (isOwn) {
            parts.append("tx = ").append(attributeText(method.attribute(), bean.type())).append('\n');
        }
        writeBody(body);
    }

    private void writeBody(List<String> body) {
        if (!body.isEmpty()) {
            parts.append("body = [\n");
            body.forEach(statement -> parts.append("    ").append(quoted(statement)).append(",\n"));
            parts.append("]\n");
        }
    }

    /** The statements that the byte code shows, and comments on what it may do besides. */
    private List<String> bodyOf(Application.Bean bean, Application.BeanMethod method, List<String> comments) {
        List<String> body = new ArrayList<>();
        ByteCode code = ByteCode.of(method.method());
        if (code == null) {
            return body;
        }
        for (ByteCode.Step step : code.steps()) {
            if (step instanceof ByteCode.Call call) {
                addCall(bean, call, body, comments);
            } else if (step instanceof ByteCode.Publish publish) {
                addPublication(bean, publish, body, comments);
            } else if (step instanceof ByteCode.Throw thrown) {
                addThrow(bean, thrown, body, comments);
            } else if (step instanceof ByteCode.Left left) {
                comments.add("left out: " + left.what());
            } else {
                body.add("mark");
            }
        }
        if (code.hasBranches() && !body.isEmpty()) {
            comments.add("has branches: each call stands once, in the order of the byte code");
        }
        return body;
    }

    private void addCall(Application.Bean bean, ByteCode.Call call, List<String> body, List<String> comments) {
        boolean isSelf = call.field() == null;
        Application.Bean target = isSelf ? bean : application.beanIn(call.field(), call.fieldType(), bean.type());
        Application.BeanMethod method = target == null ? null : Application.methodOf(target, call.method(), call.descriptor());
        if (method == null) {
            comments.add("left out: " + (isSelf ? "" : call.field() + ".") + call.method() + "(..)");
            return;
        }
        called.add(method);
        body.add((isSelf ? "this " : "call " + target.name() + ".") + method.name() + catchText(call, bean));
    }

    private String catchText(ByteCode.Call call, Application.Bean bean) {
        Class<?> caught = call.caught() == null ? null : Application.classOf(call.caught(), bean.type());
        return caught == null ? "" : " catch " + exceptions.nameOf(caught);
    }

    private void addPublication(Application.Bean bean, ByteCode.Publish publish, List<String> body, List<String> comments) {
        Class<?> event = publish.event() == null ? null : Application.classOf(publish.event(), bean.type());
        if (event == null) {
            comments.add("left out: publishEvent(..) of an event that isn't made on the spot");
        } else {
            body.add("publish " + events.get(event));
        }
    }

    private void addThrow(Application.Bean bean, ByteCode.Throw thrown, List<String> body, List<String> comments) {
        Class<?> type = Application.classOf(thrown.exception(), bean.type());
        if (type == null) {
            comments.add("left out: throw of " + thrown.exception());
        } else if (thrown.isSure()) {
            body.add("throw " + exceptions.nameOf(type));
        } else {
            comments.add("may: throw " + exceptions.nameOf(type));
        }
    }

    private String attributeText(Attribute attribute, Class<?> bean) {
        List<String> keys = new ArrayList<>();
        if (!attribute.propagation().equals("required")) {
            keys.add("propagation = " + quoted(attribute.propagation()));
        }
        if (attribute.readOnly()) {
            keys.add("read_only = true");
        }
        if (!attribute.rules().isEmpty()) {
            List<String> rules = attribute.rules().stream().map(rule -> quoted(ruleText(rule, bean))).toList();
            keys.add("rules = [" + String.join(", ", rules) + "]");
        }
        return keys.isEmpty() ? "{}" : "{ " + String.join(", ", keys) + " }";
    }

    private String ruleText(Attribute.Rule rule, Class<?> bean) {
        String word = rule.rollback() ? "rollback " : "keep ";
        Class<?> type = rule.isPattern() ? null : Application.classOf(rule.exception(), bean);
        return word + (type == null ? "~" + rule.exception() : exceptions.nameOf(type));
    }

    /** Whether a method is a listener that no call of a scenario can mean: it has no transaction of its own. */
    private boolean isListenerAlone(Application.BeanMethod method) {
        boolean isListener = application.listeners.stream().anyMatch(listener -> listener.method() == method);
        return isListener && !isApart(method) && !called.contains(method);
    }

    private static boolean isApart(Application.BeanMethod method) {
        return method.attribute() != null && method.attribute().propagation().equals("requires_new");
    }

    private void writeListeners() {
        Set<String> names = new HashSet<>();
        for (Application.Listener listener : application.listeners) {
            events.forEach((event, name) -> {
                if (listener.heard().isAssignableFrom(event)) {
                    writeListener(listener, name, Names.unique(listener.bean().name() + "_" + listener.method().name(), names));
                }
            });
        }
    }

    private void writeListener(Application.Listener listener, String event, String name) {
        List<String> comments = new ArrayList<>();
        List<String> body = listenerBody(listener, comments);
        parts.append('\n');
        comments.forEach(comment -> parts.append("# ").append(comment).append('\n'));
        parts.append("[[listeners]]\nname = ").append(quoted(name)).append("\nevent = ").append(quoted(event))
            .append("\nphase = ").append(quoted(listener.phase())).append('\n');
        if (listener.order() != Integer.MAX_VALUE) {
            parts.append("order = ").append(listener.order()).append('\n');
        }
        if (listener.fallback()) {
            parts.append("fallback = true\n");
        }
        writeBody(body);
    }

    /** A listener's body may hold throws, and calls of methods with a transaction of their own, but none before the commit. */
    private List<String> listenerBody(Application.Listener listener, List<String> comments) {
        Application.BeanMethod method = listener.method();
        boolean isBefore = listener.phase().equals("before_commit");
        if (isApart(method) && !isBefore) {
            called.add(method);
            return List.of("call " + listener.bean().name() + "." + method.name());
        }
        List<String> body = new ArrayList<>();
        if (method.attribute() != null) {
            comments.add("left out: the transaction of the listener itself, " + method.attribute().propagation());
        }
        for (String statement : bodyOf(listener.bean(), method, comments)) {
            boolean isThrow = statement.startsWith("throw ");
            if (isThrow || !isBefore && statement.startsWith("call ") && isApart(methodNamed(statement.split(" ")[1]))) {
                body.add(statement);
            } else {
                comments.add("left out, since a listener of this phase may not hold it: " + statement);
            }
        }
        return body;
    }

    private Application.BeanMethod methodNamed(String name) {
        return application.beans.stream().flatMap(bean -> bean.methods().stream()
            .filter(method -> name.equals(bean.name() + "." + method.name()))).findFirst().orElseThrow();
    }

    /** A client that calls each public method that nothing else calls. */
    private void writeClient() {
        List<String> calls = new ArrayList<>();
        for (Application.Bean bean : application.beans) {
            for (Application.BeanMethod method : bean.methods()) {
                boolean isPublic = java.lang.reflect.Modifier.isPublic(method.method().getModifiers());
                if (isPublic && !called.contains(method) && !isListenerAlone(method) && calls.size() < MOST_CALLS) {
                    calls.add(quoted(bean.name() + "." + method.name()));
                }
            }
        }
        parts.append("\n[[clients]]\ncalls = [").append(String.join(", ", calls)).append("]\n");
    }

    private static String quoted(String text) {
        return '"' + text + '"';
    }
}
