import java.io.IOException;
import java.nio.file.Files;
import java.nio.file.Path;
import java.util.HashSet;
import java.util.List;
import java.util.Set;
import java.util.concurrent.atomic.AtomicInteger;

/** Names that branches claim, for tests/bursts.py: in this process (--shared), or each a file. A claim looks and stores at once, or not (--racy). */
public class Names {
    private static final AtomicInteger calls = new AtomicInteger();
    private final Set<String> names = new HashSet<>();

    public synchronized boolean claimed(String name) {
        return names.contains(name);
    }

    public boolean claim(String name) {
        return store(name);
    }

    synchronized boolean store(String name) {
        return names.add(name);
    }

    public int count() {
        return calls.incrementAndGet();
    }

    public String text(int size) {
        return "x".repeat(size);
    }

    public boolean fail() {
        throw new IllegalStateException("as asked");
    }

    public boolean unknown() {
        throw new Pst.Unknown("as asked");
    }

    public boolean end() {
        Runtime.getRuntime().halt(3);
        return true;
    }

    /** Another thread may claim the name between the look and the store. */
    static class Racy extends Names {
        @Override
        public boolean claim(String name) {
            if (claimed(name)) return false;
            store(name);
            return true;
        }
    }

    /** A name is a file. Two calls of the system look and make it, or one. */
    static class NamedFiles extends Names {
        private final Path folder = Path.of(System.getenv("TMPDIR"), "names-" + System.getenv("PST_WORKER"));
        private final boolean isRacy;

        NamedFiles(boolean isRacy) {
            this.isRacy = isRacy;
        }

        public boolean reset() throws IOException {
            if (!System.getenv("PST_BRANCH").equals("1")) return true;
            Files.createDirectories(folder);
            for (String name : List.of("a", "b")) Files.deleteIfExists(folder.resolve(name));
            return true;
        }

        @Override
        public boolean claimed(String name) {
            return Files.exists(folder.resolve(name));
        }

        @Override
        public boolean claim(String name) {
            if (isRacy && claimed(name)) return false;
            try {
                Files.createFile(folder.resolve(name));
                return true;
            } catch (IOException error) {
                return isRacy;
            }
        }
    }

    public static void main(String[] words) throws IOException {
        boolean isRacy = List.of(words).contains("--racy");
        if (System.getenv("PST_PIPES") != null) Pst.serve(isRacy ? Racy::new : Names::new);
        else Pst.serveBranch(new NamedFiles(isRacy));
    }
}
