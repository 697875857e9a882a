import java.io.IOException;
import java.lang.invoke.MethodHandles;
import java.lang.invoke.VarHandle;
import java.lang.reflect.InvocationTargetException;
import java.nio.ByteBuffer;
import java.nio.ByteOrder;
import java.nio.channels.FileChannel;
import java.nio.file.Path;
import java.nio.file.StandardOpenOption;
import java.util.ArrayList;
import java.util.Collections;
import java.util.LinkedHashMap;
import java.util.List;
import java.util.Map;
import java.util.TreeMap;
import java.util.concurrent.locks.LockSupport;
import java.util.stream.Collectors;

/** The bursts of a branch: a case that is driven many times without a line between the calls. docs/clients.md has the rules. */
final class Bursts {
    /** Makes the call of the words of a line, and returns its result. */
    interface Calls {
        Object call(List<?> words) throws Exception;
    }

    /** The burst of a branch ends before the drive that it is in. */
    private static final class BurstEnds extends Exception {
        private static final long serialVersionUID = 1;
    }

    /** The words by which the branches of a worker wait for each other, each 64 bytes after the one before. */
    static final class Gate {
        static final long ENDED = (1L << 32) - 1; // the step of a branch that has ended its burst
        private static final VarHandle WORDS = MethodHandles.byteBufferViewVarHandle(long[].class, ByteOrder.LITTLE_ENDIAN);
        private final ByteBuffer memory;
        private final int branches;

        /** A gate for threads of this process. */
        Gate(int branches) {
            this(branches, ByteBuffer.allocateDirect(4096));
        }

        private Gate(int branches, ByteBuffer memory) {
            this.branches = branches;
            this.memory = memory;
        }

        /** Returns a gate that other processes have too. */
        static Gate ofFile(int branches, Path file) throws IOException {
            try (FileChannel channel = FileChannel.open(file, StandardOpenOption.READ, StandardOpenOption.WRITE)) {
                return new Gate(branches, channel.map(FileChannel.MapMode.READ_WRITE, 0, 4096));
            }
        }

        private void set(int branch, long burst, long step) {
            WORDS.setVolatile(memory, 64 * branch, (burst << 32) + step);
        }

        private long get(int branch) {
            return (long) WORDS.getVolatile(memory, 64 * branch);
        }

        /** Waits until the branches from one to another have come to a step. Throws BurstEnds if one has ended the burst, or after two seconds. */
        private void await(int first, int last, long burst, long step) throws BurstEnds {
            long begun = System.nanoTime();
            for (int branch = first; branch <= last; branch++) {
                while (Long.compareUnsigned(get(branch), (burst << 32) + step) < 0) {
                    long waited = System.nanoTime() - begun;
                    if (waited > 2_000_000_000L) throw new BurstEnds();
                    if (waited > 1_000_000) LockSupport.parkNanos(50_000);
                    else if (waited > 10_000) Thread.yield(); // the other one may wait for this processor
                }
                if (Long.compareUnsigned(get(branch), (burst << 32) + ENDED) >= 0) throw new BurstEnds();
            }
        }
    }

    private final int number;
    private final Gate gate;
    private final Calls calls;

    Bursts(int number, Gate gate, Calls calls) {
        this.number = number;
        this.gate = gate;
        this.calls = calls;
    }

    private static boolean hasFailed(String answer) {
        return answer.startsWith("failed");
    }

    private static boolean isOutcome(String answer) {
        return !hasFailed(answer) && !answer.startsWith("unknown");
    }

    /** Returns the line that answers a line. Without a gate there are no bursts. */
    String answer(String line) {
        List<?> words;
        try {
            words = (List<?>) Json.read(line);
        } catch (IOException | RuntimeException error) {
            return "failed: " + error;
        }
        if (isBurst(words)) return make(words);
        String answer = answerTo(words);
        return gate != null && line.startsWith("[\"reset\"") && isOutcome(answer) ? "burst" : answer;
    }

    /** Returns whether the words of a line ask for a burst. */
    private static boolean isBurst(List<?> words) {
        return words.size() == 6 && words.get(0).equals("burst") && words.subList(1, 3).stream().allMatch(word -> word instanceof Number)
            && words.subList(3, 6).stream().allMatch(word -> word instanceof List);
    }

    /** Makes a call, and returns the line that answers it. */
    private String answerTo(List<?> words) {
        try {
            return Json.write(calls.call(words));
        } catch (Exception error) {
            Throwable cause = error instanceof InvocationTargetException ? error.getCause() : error;
            return (cause instanceof Pst.Unknown ? "unknown: " : "failed: ") + cause.toString().replace('\n', ' ');
        }
    }

    /** Makes the drives of a burst. Returns the line with the number of each one's answers, and each list of answers once. */
    private String make(List<?> words) {
        long burst = ((Number) words.get(1)).longValue();
        long drives = ((Number) words.get(2)).longValue();
        if (gate == null || burst < 1 || burst > Gate.ENDED || drives < 1 || drives > 1000) return "failed: this burst cannot be made";
        Map<String, Integer> lists = new LinkedHashMap<>();
        List<Integer> places = new ArrayList<>();
        long limit = System.nanoTime() + 1_000_000 * Long.parseLong(System.getenv().getOrDefault("PST_BURST_MILLISECONDS", "1000000"));
        int size = 10;
        try {
            gate.set(number, burst, 0);
            for (int at = 0; at < drives; at++) {
                List<String> answers = drive(burst, 3L * at, copy(words.subList(3, 6)));
                String list = answers.stream().map(it -> it == null ? "null" : Json.write(it)).collect(Collectors.joining(",", "[", "]"));
                size += 5 + (lists.containsKey(list) ? 0 : list.length() + 1);
                if (size > 1_000_000) throw new BurstEnds();
                lists.putIfAbsent(list, lists.size());
                places.add(lists.get(list));
                if (number == 1 && System.nanoTime() > limit) throw new BurstEnds();
            }
        } catch (BurstEnds end) {
            gate.set(number, burst, Gate.ENDED);
        }
        List<String> items = new ArrayList<>(List.of(Json.write(places)));
        items.addAll(lists.keySet());
        return "[" + String.join(",", items) + "]";
    }

    /** Returns a copy of the calls, since a method may change its arguments. */
    private static List<List<List<?>>> copy(List<?> parts) {
        @SuppressWarnings("unchecked") List<List<List<?>>> copied = (List<List<List<?>>>) copied(parts);
        return copied;
    }

    private static Object copied(Object value) {
        if (value instanceof List<?> items) return new ArrayList<>(items.stream().map(Bursts::copied).toList());
        return value instanceof Map<?, ?> map ? new TreeMap<>(map) : value;
    }

    /** Makes calls up to one that has no outcome. Returns an answer for each, null if it was not made. */
    private List<String> makeAll(List<List<?>> part) {
        List<String> answers = new ArrayList<>(Collections.nCopies(part.size(), null));
        for (int at = 0; at < part.size(); at++) {
            answers.set(at, answerTo(part.get(at)));
            if (!isOutcome(answers.get(at))) break;
        }
        return answers;
    }

    /** Makes a drive: a reset after that of the branch before, the prefix, the branch at the same time as the others, the suffix. */
    private List<String> drive(long burst, long step, List<List<List<?>>> parts) throws BurstEnds {
        awaitIfFirst(burst, step);
        if (number > 1) gate.await(number - 1, number - 1, burst, step + 1);
        if (!isOutcome(answerTo(List.of("reset")))) throw new BurstEnds();
        gate.set(number, burst, step + 1);
        awaitIfFirst(burst, step + 1);
        List<String> answers = makeAll(parts.get(0));
        for (String answer : answers) if (answer == null || !isOutcome(answer)) throw new BurstEnds();
        gate.set(number, burst, step + 2);
        gate.await(1, gate.branches, burst, step + 2);
        List<String> own = makeAll(parts.get(1));
        gate.set(number, burst, step + 3);
        awaitIfFirst(burst, step + 3);
        boolean isOver = own.stream().anyMatch(answer -> answer != null && hasFailed(answer));
        answers.addAll(own);
        answers.addAll(isOver ? Collections.nCopies(parts.get(2).size(), null) : makeAll(parts.get(2)));
        return answers;
    }

    private void awaitIfFirst(long burst, long step) throws BurstEnds {
        if (number == 1) gate.await(1, gate.branches, burst, step);
    }
}
