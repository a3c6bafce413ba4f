import java.util.Set;

/** Names as a scenario may have them. */
final class Names {
    private static final int LONGEST = 32;

    private Names() {}

    /** A name of letters, digits and _ of at most 32 bytes, that isn't among the others yet. */
    static String unique(String text, Set<String> others) {
        String plain = text.replaceAll("[^A-Za-z0-9_]", "_").replaceFirst("^(?=[0-9])", "_");
        String name = plain.substring(0, Math.min(plain.length(), LONGEST));
        for (int number = 2; !others.add(name); number++) {
            String end = "_" + number;
            name = plain.substring(0, Math.min(plain.length(), LONGEST - end.length())) + end;
        }
        return name;
    }
}
