import java.util.HashSet;
import java.util.List;
import java.util.Set;
import java.util.concurrent.locks.LockSupport;

/** A client of examples/cache.model in one process (--shared): a set whose add looks and adds under one lock, or under two (--racy). */
public class Cache {
    private final Set<Integer> kept = new HashSet<>();

    public synchronized boolean add(int key) {
        return kept.add(key);
    }

    public synchronized boolean has(int key) {
        return kept.contains(key);
    }

    public synchronized boolean clear() {
        kept.clear();
        return true;
    }

    /** Another thread may add the key while this one waits. */
    static class Racy extends Cache {
        @Override
        public boolean add(int key) {
            if (has(key)) return false;
            LockSupport.parkNanos(1_000_000);
            super.add(key);
            return true;
        }
    }

    public static void main(String[] words) {
        Pst.serve(List.of(words).contains("--racy") ? Racy::new : Cache::new);
    }
}
