import java.util.Map;

/** Tests the caches of Cache.java. With JUnit each method gets a @Test, and main is not needed: java CacheTest METHOD calls one. */
public class CacheTest {
    static final String MODEL = "../../cache.model";

    public void locked() throws Exception {
        Pst.check(MODEL, Cache::new, Map.of("trials", 40));
    }

    /** Fails, with the race as its message. */
    public void racy() throws Exception {
        Pst.check(MODEL, Cache.Racy::new, Map.of("trials", 40, "limit", 200, "max_failures", 1));
    }

    public static void main(String[] names) throws Exception {
        for (String name : names) CacheTest.class.getMethod(name).invoke(new CacheTest());
    }
}
