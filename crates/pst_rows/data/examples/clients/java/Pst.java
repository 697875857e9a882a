import java.io.BufferedReader;
import java.io.IOException;
import java.io.InputStreamReader;
import java.nio.file.Path;
import java.util.ArrayList;
import java.util.List;
import java.util.Map;
import java.util.TreeMap;
import java.util.function.Supplier;

/**
 * Tests an object that several threads use, or a system that several processes use. check is for JUnit and other tests, serve for pst campaign --shared
 * --client, and serveBranch for pst campaign --client. All make bursts (docs/clients.md).
 *
 * <p>makeSystem makes an object in the initial state of the model. It has a public method for each operation.
 */
public final class Pst {
    private Pst() {}

    /** A call throws this if nobody knows whether it took effect, as after a timeout. */
    public static final class Unknown extends RuntimeException {
        private static final long serialVersionUID = 1;

        public Unknown(String why) {
            super(why);
        }
    }

    /** Answers the calls of all branches on objects of this process. */
    public static void serve(Supplier<?> makeSystem) {
        String pipes = System.getenv("PST_PIPES");
        if (pipes == null) {
            System.err.println("PST_PIPES is not set: run this client by pst campaign --client 'java ..' --shared");
            System.exit(1);
        }
        new Branches(makeSystem).start(pipes, Integer.parseInt(System.getenv("PST_BRANCHES")), false);
    }

    /** Answers the calls of the branch of this process: calls has a public method for each operation, and one for reset. */
    public static void serveBranch(Object calls) throws IOException {
        String file = System.getenv("PST_GATE");
        Bursts.Gate gate = file == null ? null : Bursts.Gate.ofFile(Integer.parseInt(System.getenv("PST_BRANCHES")), Path.of(file));
        Bursts bursts = new Bursts(Integer.parseInt(System.getenv("PST_BRANCH")), gate, words -> Branches.call(calls, words));
        Branches.answerLines(bursts, new BufferedReader(new InputStreamReader(System.in)), System.out);
    }

    /**
     * Runs a campaign on objects of this process, and throws an AssertionError with the smallest run that the model cannot explain, if there is one.
     * The options are those of pst campaign, as in Map.of("max_failures", 1). The variable PST names the program, if it is not pst on the path.
     */
    public static void check(String model, Supplier<?> makeSystem, Map<String, ?> options) throws IOException, InterruptedException {
        Map<String, String> all = new TreeMap<>(Map.of("workers", "1", "branches", "2"));
        options.forEach((name, value) -> all.put(name.replace('_', '-'), value.toString()));
        int workers = Integer.parseInt(all.get("workers"));
        int branches = Integer.parseInt(all.get("branches"));
        String pipes = "cd $(mktemp -dt pst-XXXX) && echo $PWD && mkfifo {1..%d}-{1..%d}.{calls,answers}".formatted(workers, branches);
        String folder = run(List.of("bash", "-c", pipes)).text.strip();
        for (int worker = 1; worker <= workers; worker++) new Branches(makeSystem).start(folder + "/" + worker, branches, true);
        List<String> words = new ArrayList<>(List.of(System.getenv().getOrDefault("PST", "pst"), "campaign", "shared:" + folder, model));
        all.forEach((name, value) -> words.addAll(List.of("--" + name, value)));
        try {
            Ran campaign = run(words);
            if (campaign.status != 0) throw new AssertionError(campaign.text);
        } finally {
            run(List.of("rm", "-r", folder));
        }
    }

    private record Ran(int status, String text) {}

    /** Runs a program, and returns its status and what it printed. */
    private static Ran run(List<String> words) throws IOException, InterruptedException {
        Process process = new ProcessBuilder(words).redirectErrorStream(true).start();
        String text = new String(process.getInputStream().readAllBytes());
        return new Ran(process.waitFor(), text);
    }
}
