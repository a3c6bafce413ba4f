import java.io.IOException;
import java.net.URL;
import java.net.URLClassLoader;
import java.nio.file.Files;
import java.nio.file.Path;
import java.util.ArrayList;
import java.util.List;
import java.util.stream.Stream;

/** Writes the skeleton of a springtx scenario from compiled classes: from_java FOLDER.. */
public final class FromJava {
    private FromJava() {}

    public static void main(String[] folders) throws IOException {
        List<URL> places = new ArrayList<>();
        List<String> names = new ArrayList<>();
        for (String folder : folders) {
            Path top = Path.of(folder);
            places.add(top.toUri().toURL());
            names.addAll(classNamesIn(top));
        }
        ClassLoader loader = new URLClassLoader(places.toArray(URL[]::new), FromJava.class.getClassLoader());
        List<Class<?>> classes = new ArrayList<>();
        for (String name : names) {
            try {
                classes.add(Class.forName(name, false, loader));
            } catch (ClassNotFoundException | LinkageError missing) {
                System.err.println("from_java: " + name + " is passed over: " + missing);
            }
        }
        System.out.print(new Skeleton(new Application(classes)).text());
    }

    /** The names of the classes below a folder, in the order of their paths. */
    private static List<String> classNamesIn(Path top) throws IOException {
        try (Stream<Path> files = Files.walk(top)) {
            return files.map(file -> top.relativize(file).toString())
                .filter(file -> file.endsWith(".class") && !file.endsWith("-info.class"))
                .map(file -> file.substring(0, file.length() - ".class".length()).replace('/', '.'))
                .sorted().toList();
        }
    }
}
