import java.io.BufferedReader;
import java.io.IOException;
import java.io.InputStreamReader;
import java.net.InetAddress;
import java.net.ServerSocket;
import java.net.Socket;
import java.util.Map;
import java.util.concurrent.ConcurrentHashMap;
import java.util.stream.IntStream;

/** A server of names: a claim is a get and a put of a ConcurrentHashMap. The window has some 50 nanoseconds once the code is compiled. */
public class NamesServer {
    private final Map<String, Boolean> names = new ConcurrentHashMap<>();

    boolean claim(String name) {
        if (names.get(name) != null) return false;
        names.put(name, true);
        return true;
    }

    boolean answer(String[] words) {
        switch (words[1]) {
            case "claim": return claim(words[2]);
            case "claimed": return names.get(words[2]) != null;
            default:
                names.clear();
                return true;
        }
    }

    static void serve(Socket client, NamesServer[] objects) {
        try (BufferedReader lines = new BufferedReader(new InputStreamReader(client.getInputStream()))) {
            client.setTcpNoDelay(true);
            for (String line = lines.readLine(); line != null; line = lines.readLine()) {
                String[] words = line.split(" ");
                client.getOutputStream().write((objects[Integer.parseInt(words[0])].answer(words) + "\n").getBytes());
            }
        } catch (IOException error) {
            System.err.println(error);
        }
    }

    public static void main(String[] words) throws IOException {
        NamesServer[] objects = IntStream.range(0, 64).mapToObj(at -> new NamesServer()).toArray(NamesServer[]::new);
        ServerSocket server = new ServerSocket(Integer.parseInt(words[0]), 64, InetAddress.getByName("127.0.0.1"));
        while (true) {
            Socket client = server.accept();
            new Thread(() -> serve(client, objects)).start();
        }
    }
}
