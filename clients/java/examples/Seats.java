import com.sun.net.httpserver.HttpExchange;
import com.sun.net.httpserver.HttpServer;
import java.io.IOException;
import java.net.InetSocketAddress;
import java.net.URLDecoder;
import java.nio.charset.StandardCharsets;
import java.time.Duration;
import java.util.Map;
import java.util.TreeMap;
import java.util.concurrent.Executors;
import java.util.stream.Collectors;
import ssikvd.Store;
import ssikvd.StoreException;
import ssikvd.Transaction;

/**
 * A web application that reserves seats, over the JDK's own web server: {@code java -cp out Seats ADDRESS PORT}. From a shell:
 *
 * <pre>
 * curl -d name=ann -H 'Idempotency-Key: 1' http://127.0.0.1:PORT/seats/3B
 *
 * GET  /seats          200: each seat, `free` or `taken`, as one state of the store
 * POST /seats/SEAT     reserves the seat for the form's `name`; the header `Idempotency-Key` names the request, and is new for each
 *                      201: it is reserved. 409: it is taken. 404: there is no such seat. 400: no name, or no key.
 *                      422: the key came before with another seat or name
 * </pre>
 *
 * <p>Whoever repeats a request with its key gets the answer that the first one got, and no second seat. Either may answer also
 *
 * <pre>
 * 503    with Retry-After: the store is full, stopped or not to be reached, or conflicts went on until the deadline. Nothing was
 *        written
 * 504    it isn't known whether the seat is reserved: repeat the request with the same key, and tell nobody that it failed
 * </pre>
 *
 * <p>Keys: {@code seat:SEAT} holds the name, and isn't there while the seat is free. {@code done:KEY} holds the status that was answered,
 * the seat and the name; delete it once nobody repeats the request any more.
 */
public class Seats {
    private static final int BYTES_MAX = 100; // of a name, and of an idempotency key
    private static final int FORM_MAX = 4_096;
    private static final int CONNECTIONS = 16; // those of all processes together should be at most 64; as many threads use them
    private static final Duration DEADLINE = Duration.ofSeconds(2); // that a visitor waits, before there is a page that says so

    /** An answer that isn't a page, and its status. */
    static final class Answer extends RuntimeException {
        private static final long serialVersionUID = 1;
        final int status;

        Answer(int status, String text) {
            super(text);
            this.status = status;
        }
    }

    /** A page, and its status. */
    record Page(int status, Map<String, String> values) {
        /** The values as JSON. */
        String json() {
            var fields = values.entrySet().stream().map(one -> quoted(one.getKey()) + ":" + quoted(one.getValue()));
            return fields.collect(Collectors.joining(",", "{", "}"));
        }

        private static String quoted(String text) {
            var found = new StringBuilder("\"");
            for (char each : text.toCharArray()) {
                boolean isPlain = each >= ' ' && each != '"' && each != '\\';
                found.append(isPlain ? String.valueOf(each) : String.format("\\u%04x", (int) each));
            }
            return found.append('"').toString();
        }
    }

    /** Each seat there is, as {@code free}. */
    static Map<String, String> allFree() {
        var seats = new TreeMap<String, String>();
        for (int row = 1; row <= 10; row++) {
            for (char place : "ABCDEF".toCharArray()) {
                seats.put(row + String.valueOf(place), "free");
            }
        }
        return seats;
    }

    /** Each seat, as the transaction sees it. */
    static Map<String, String> states(Transaction transaction) {
        Map<String, String> seats = allFree();
        for (var pair : transaction.range("seat:", "seat;", Transaction.ALL)) {
            seats.put(new String(pair.key(), StandardCharsets.UTF_8).substring("seat:".length()), "taken");
        }
        return seats;
    }

    /** Reserves the seat, unless it is taken. Gives the status to answer, and what was asked. */
    static String reserve(Transaction transaction, String seat, String name) {
        if (transaction.get("seat:" + seat) != null) {
            return "409 " + seat + " " + name;
        }
        transaction.set("seat:" + seat, name);
        return "201 " + seat + " " + name;
    }

    /** The form's name; empty where it has none that is well formed. */
    static String nameIn(HttpExchange exchange) throws IOException {
        byte[] form = exchange.getRequestBody().readNBytes(FORM_MAX + 1);
        if (form.length > FORM_MAX) {
            throw new Answer(413, "The form is too long.");
        }
        for (String field : new String(form, StandardCharsets.UTF_8).split("&")) {
            if (field.startsWith("name=")) {
                try {
                    return URLDecoder.decode(field.substring("name=".length()), StandardCharsets.UTF_8);
                } catch (IllegalArgumentException malformed) {
                    break;
                }
            }
        }
        return "";
    }

    static boolean isRight(String text) {
        return text != null && !text.isEmpty() && text.getBytes(StandardCharsets.UTF_8).length <= BYTES_MAX;
    }

    static Page post(Store store, String seat, HttpExchange exchange) throws IOException {
        String key = exchange.getRequestHeaders().getFirst("Idempotency-Key"), name = nameIn(exchange);
        if (!allFree().containsKey(seat)) {
            throw new Answer(404, "There is no such seat.");
        } else if (!isRight(key) || !isRight(name)) {
            throw new Answer(400, "An Idempotency-Key and a name are needed, each of at most " + BYTES_MAX + " bytes.");
        }
        String found = store.once("done:" + key, transaction -> reserve(transaction, seat, name));
        if (found.equals("201 " + seat + " " + name)) {
            return new Page(201, Map.of("seat", seat, "name", name));
        } else if (found.equals("409 " + seat + " " + name)) {
            throw new Answer(409, "The seat is taken.");
        }
        throw new Answer(422, "This Idempotency-Key came before with another seat or name.");
    }

    static Page pageOf(Store store, HttpExchange exchange) throws IOException {
        String path = exchange.getRequestURI().getPath(), method = exchange.getRequestMethod();
        if (method.equals("GET") && path.equals("/seats")) {
            return new Page(200, store.transact(Seats::states));
        } else if (method.equals("POST") && path.startsWith("/seats/")) {
            return post(store, path.substring("/seats/".length()), exchange);
        }
        throw new Answer(404, "There is no such page.");
    }

    /** What to answer in place of a page. Invalid and Refused are faults of this program, as is all else. */
    static Answer answerTo(RuntimeException error) {
        if (error instanceof Answer answer) {
            return answer;
        }
        System.err.println(error);
        if (error instanceof StoreException.Lost) {
            return new Answer(504, "It isn't known whether this was done. Repeat it with the same Idempotency-Key.");
        }
        if (!(error instanceof StoreException) || error instanceof StoreException.Invalid || error instanceof StoreException.Refused) {
            return new Answer(500, "This program has a fault.");
        }
        return new Answer(503, "Nothing was done. Repeat the request later.");
    }

    static void respond(Store store, HttpExchange exchange) throws IOException {
        int status;
        String type, text;
        try {
            Page page = pageOf(store, exchange);
            status = page.status();
            type = "application/json";
            text = page.json();
        } catch (RuntimeException error) {
            Answer answer = answerTo(error);
            status = answer.status;
            type = "text/plain; charset=utf-8";
            text = answer.getMessage() + "\n";
        }
        if (status == 503) {
            exchange.getResponseHeaders().set("Retry-After", "1");
        }
        exchange.getResponseHeaders().set("Content-Type", type);
        try (exchange) {
            byte[] body = text.getBytes(StandardCharsets.UTF_8);
            exchange.sendResponseHeaders(status, body.length);
            exchange.getResponseBody().write(body);
        }
    }

    public static void main(String[] words) throws IOException {
        System.setProperty("sun.net.httpserver.maxReqTime", "10"); // seconds for a request to come in, so that none holds a thread for long
        System.setProperty("sun.net.httpserver.nodelay", "true");
        var store = Store.connect(words[0], new Store.Options(CONNECTIONS, Duration.ofSeconds(1), DEADLINE, DEADLINE));
        var server = HttpServer.create(new InetSocketAddress("127.0.0.1", Integer.parseInt(words[1])), 0);
        server.setExecutor(Executors.newFixedThreadPool(CONNECTIONS));
        server.createContext("/", exchange -> respond(store, exchange));
        server.start();
        System.out.println("listening 127.0.0.1:" + server.getAddress().getPort());
    }
}
