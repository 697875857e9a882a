import java.io.IOException;
import java.io.StreamTokenizer;
import java.io.StringReader;
import java.util.ArrayList;
import java.util.Collection;
import java.util.List;
import java.util.Map;
import java.util.TreeMap;
import java.util.stream.Collectors;

/** The values of a model and their JSON. A list or a tuple is a List, and a map is a Map, whose keys are texts. */
final class Json {
    /** Reads a value. A number is an Integer, which a method takes as int or long, or a Long if it does not fit. */
    static Object read(String json) throws IOException {
        StreamTokenizer tokens = new StreamTokenizer(new StringReader(json));
        tokens.ordinaryChars('-', '9');
        tokens.wordChars('-', '9');
        return read(tokens);
    }

    private static Object read(StreamTokenizer tokens) throws IOException {
        switch (tokens.nextToken()) {
            case '"': return tokens.sval;
            case '[': return items(tokens);
            case '{': return map(items(tokens));
            default: return "true".equals(tokens.sval) || "false".equals(tokens.sval) ? Boolean.valueOf(tokens.sval) : number(tokens.sval);
        }
    }

    private static Object number(String digits) {
        long number = Long.parseLong(digits);
        return number == (int) number ? (Object) (int) number : (Object) number;
    }

    /** Reads up to the closing bracket. The key of an entry is an item, and so is its value. */
    private static List<Object> items(StreamTokenizer tokens) throws IOException {
        List<Object> items = new ArrayList<>();
        while (tokens.nextToken() != ']' && tokens.ttype != '}') {
            if (tokens.ttype == ',' || tokens.ttype == ':') continue;
            tokens.pushBack();
            items.add(read(tokens));
        }
        return items;
    }

    private static Map<Object, Object> map(List<Object> items) {
        Map<Object, Object> map = new TreeMap<>();
        for (int at = 0; at < items.size(); at += 2) map.put(items.get(at), items.get(at + 1));
        return map;
    }

    /** Returns the JSON of a number, a boolean, a String, a Collection or a Map. */
    static String write(Object value) {
        if (value instanceof Collection<?> items) return items.stream().map(Json::write).collect(Collectors.joining(",", "[", "]"));
        if (value instanceof Map<?, ?> map) return map.entrySet().stream().map(Json::entry).collect(Collectors.joining(",", "{", "}"));
        return value instanceof String text ? '"' + text.replace("\\", "\\\\").replace("\"", "\\\"") + '"' : String.valueOf(value);
    }

    private static String entry(Map.Entry<?, ?> entry) { return write(entry.getKey().toString()) + ":" + write(entry.getValue()); }
}
