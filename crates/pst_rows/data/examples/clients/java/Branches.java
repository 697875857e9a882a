import java.io.BufferedReader;
import java.io.IOException;
import java.io.PrintStream;
import java.lang.reflect.Method;
import java.nio.file.Files;
import java.nio.file.Path;
import java.util.List;
import java.util.function.Supplier;

/** The branches of a worker. Each is a thread that answers the lines of a pipe until they end, and all call the methods of one object. */
final class Branches {
    private final Supplier<?> makeSystem;
    private volatile Object system;

    Branches(Supplier<?> makeSystem) {
        this.makeSystem = makeSystem;
    }

    /** Starts the threads. Daemons do not keep the process alive. */
    void start(String pipes, int branches, boolean areDaemons) {
        Bursts.Gate gate = new Bursts.Gate(branches);
        for (int number = 1; number <= branches; number++) {
            int branch = number;
            Thread thread = new Thread(() -> answerCalls(pipes + "-" + branch, branch, gate));
            thread.setDaemon(areDaemons);
            thread.start();
        }
    }

    private void answerCalls(String pipe, int branch, Bursts.Gate gate) {
        Bursts bursts = new Bursts(branch, gate, words -> call(words, branch));
        try (BufferedReader calls = Files.newBufferedReader(Path.of(pipe + ".calls")); PrintStream answers = new PrintStream(pipe + ".answers")) {
            answerLines(bursts, calls, answers);
        } catch (IOException error) {
            System.err.println(error);
        }
    }

    /** Answers lines until they end. */
    static void answerLines(Bursts bursts, BufferedReader calls, PrintStream answers) throws IOException {
        for (String line = calls.readLine(); line != null; line = calls.readLine()) {
            answers.print(bursts.answer(line) + "\n");
            answers.flush();
        }
    }

    /** Makes a call. Each reset of branch 1 makes a new object. */
    private Object call(List<?> words, int branch) throws ReflectiveOperationException {
        if (!words.get(0).equals("reset")) return call(system, words);
        if (branch == 1) system = makeSystem.get();
        return true;
    }

    /** Calls the method of an object that has the name of an operation. */
    static Object call(Object system, List<?> words) throws ReflectiveOperationException {
        return call(system, words.get(0).toString().replace('-', '_'), words.subList(1, words.size()).toArray());
    }

    private static Object call(Object system, String name, Object... arguments) throws ReflectiveOperationException {
        for (Method method : system.getClass().getMethods()) {
            if (!method.getName().equals(name) || method.getParameterCount() != arguments.length) continue;
            method.setAccessible(true); // its class may be private
            return method.invoke(system, arguments);
        }
        throw new NoSuchMethodException(name);
    }
}
