import java.util.List;
import java.util.Map;

/** Gives options to check of Pst.java: in another spelling, and those that it sets itself. */
public class Options {
    public List<?> give_back(long n, boolean b, String t, List<?> l, Map<?, ?> m) {
        return List.of(n, b, t, l, m);
    }

    public static void main(String[] model) throws Exception {
        Pst.check(model[0], Options::new, Map.of("trials", 7, "branches", 3, "workers", 2, "limit", 50, "max_failures", 1));
    }
}
