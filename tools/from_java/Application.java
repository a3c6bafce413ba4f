import java.beans.Introspector;
import java.lang.reflect.Method;
import java.lang.reflect.Modifier;
import java.util.ArrayList;
import java.util.Comparator;
import java.util.HashSet;
import java.util.LinkedHashSet;
import java.util.List;
import java.util.Set;
import org.objectweb.asm.Type;
import org.springframework.context.event.EventListener;
import org.springframework.core.annotation.AnnotatedElementUtils;
import org.springframework.core.annotation.AnnotationUtils;
import org.springframework.core.annotation.Order;
import org.springframework.transaction.event.TransactionalEventListener;

/** The beans, listeners and events of some classes. */
final class Application {

    /** A bean: its methods have the bean's attribute where they have none of their own. */
    record Bean(String name, Class<?> type, Attribute attribute, List<BeanMethod> methods) {}

    /** A method of a bean, with the attribute that Spring gives it, or null. */
    record BeanMethod(String name, Method method, Attribute attribute) {
        boolean isPrivate() {
            return Modifier.isPrivate(method.getModifiers());
        }
    }

    /** A transactional listener of the events of some class and below. */
    record Listener(Bean bean, BeanMethod method, Class<?> heard, String phase, int order, boolean fallback) {}

    final List<Bean> beans = new ArrayList<>();
    final List<Listener> listeners = new ArrayList<>();
    final Set<Class<?>> events = new LinkedHashSet<>();
    final List<String> leftOut = new ArrayList<>();

    Application(List<Class<?>> classes) {
        Set<String> names = new HashSet<>();
        for (Class<?> type : classes) {
            if (isBean(type)) {
                beans.add(beanOf(type, Names.unique(nameOf(type), names)));
            }
        }
        for (Bean bean : beans) {
            for (BeanMethod method : bean.methods) {
                readListener(bean, method);
                readPublications(method);
            }
        }
    }

    /** A class that is a component, or has an attribute somewhere. */
    private static boolean isBean(Class<?> type) {
        if (type.isInterface() || type.isEnum() || type.isAnnotation() || Modifier.isAbstract(type.getModifiers())) {
            return false;
        }
        if (AnnotatedElementUtils.isAnnotated(type, "org.springframework.stereotype.Component")) {
            return true;
        }
        return methodsOf(type).stream().anyMatch(method -> Attribute.of(method, type) != null);
    }

    private static String nameOf(Class<?> type) {
        for (var annotation : type.getAnnotations()) {
            Object value = AnnotationUtils.getValue(annotation);
            String simple = annotation.annotationType().getSimpleName();
            boolean names = Set.of("Component", "Service", "Repository", "Controller").contains(simple);
            if (names && value instanceof String name && !name.isEmpty()) {
                return name;
            }
        }
        return Introspector.decapitalize(type.getSimpleName());
    }

    private static Bean beanOf(Class<?> type, String name) {
        Attribute ofClass = Attribute.of(type);
        List<BeanMethod> methods = new ArrayList<>();
        Set<String> names = new HashSet<>();
        for (Method method : methodsOf(type)) {
            methods.add(new BeanMethod(Names.unique(method.getName(), names), method, Attribute.of(method, type)));
        }
        // In a scenario each method has its bean's attribute, so the class's stands there only where Spring gives it to all.
        boolean reachesAll = methods.stream().allMatch(method -> method.isPrivate() || method.attribute != null);
        return new Bean(name, type, reachesAll ? ofClass : null, methods);
    }

    /** The methods of a class and of those above it, in the order of the class files, which is that of the source. */
    private static List<Method> methodsOf(Class<?> type) {
        List<Method> methods = new ArrayList<>();
        Set<String> seen = new HashSet<>();
        for (Class<?> place = type; place != null && place != Object.class; place = place.getSuperclass()) {
            List<String> order = ByteCode.methodsIn(place);
            List<Method> declared = new ArrayList<>(List.of(place.getDeclaredMethods()));
            declared.sort(Comparator.comparing(method -> order.indexOf(method.getName() + Type.getMethodDescriptor(method))));
            for (Method method : declared) {
                boolean isLeftOut = method.isSynthetic() || Modifier.isStatic(method.getModifiers());
                if (!isLeftOut && seen.add(method.getName() + Type.getMethodDescriptor(method))) {
                    methods.add(method);
                }
            }
        }
        return methods;
    }

    private void readListener(Bean bean, BeanMethod method) {
        var heard = AnnotatedElementUtils.findMergedAnnotation(method.method, TransactionalEventListener.class);
        if (heard == null) {
            if (AnnotatedElementUtils.isAnnotated(method.method, EventListener.class)) {
                leftOut.add("the plain listener " + bean.name + "." + method.name);
            }
            return;
        }
        Order order = AnnotatedElementUtils.findMergedAnnotation(method.method, Order.class);
        List<Class<?>> types = new ArrayList<>(List.of(heard.classes()));
        if (types.isEmpty()) {
            types.addAll(List.of(method.method.getParameterTypes()));
        }
        if (!heard.condition().isEmpty()) {
            leftOut.add("the condition of the listener " + bean.name + "." + method.name);
        }
        for (Class<?> type : types) {
            events.add(type);
            listeners.add(new Listener(bean, method, type, heard.phase().name().toLowerCase(),
                order == null ? Integer.MAX_VALUE : order.value(), heard.fallbackExecution()));
        }
    }

    private void readPublications(BeanMethod method) {
        ByteCode code = ByteCode.of(method.method);
        if (code == null) {
            return;
        }
        for (ByteCode.Step step : code.steps()) {
            if (step instanceof ByteCode.Publish publish && publish.event() != null) {
                Class<?> event = classOf(publish.event(), method.method.getDeclaringClass());
                if (event != null) {
                    events.add(event);
                }
            }
        }
    }

    /** The class of a name, as another class sees it, or null. */
    static Class<?> classOf(String name, Class<?> from) {
        try {
            return Class.forName(name, false, from.getClassLoader());
        } catch (ClassNotFoundException | LinkageError missing) {
            return null;
        }
    }

    /** The one bean that a field of a type holds: of several the one with the field's name. Null where that isn't clear. */
    Bean beanIn(String field, String fieldType, Class<?> from) {
        Class<?> type = classOf(fieldType, from);
        List<Bean> fitting = type == null ? List.of() : beans.stream().filter(bean -> type.isAssignableFrom(bean.type)).toList();
        if (fitting.size() > 1) {
            fitting = fitting.stream().filter(bean -> bean.name.equals(field)).toList();
        }
        return fitting.size() == 1 ? fitting.get(0) : null;
    }

    /** The method of a bean that a call means: of this name and descriptor, else the only one of this name. */
    static BeanMethod methodOf(Bean bean, String name, String descriptor) {
        List<BeanMethod> named = bean.methods.stream().filter(method -> method.method.getName().equals(name)).toList();
        return named.stream().filter(method -> Type.getMethodDescriptor(method.method).equals(descriptor)).findFirst()
            .orElse(named.size() == 1 ? named.get(0) : null);
    }
}
