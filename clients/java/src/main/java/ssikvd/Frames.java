package ssikvd;

import java.io.ByteArrayOutputStream;
import java.io.EOFException;
import java.io.IOException;
import java.nio.charset.StandardCharsets;
import java.util.ArrayList;
import java.util.List;

/** Frames and keys. Nothing here touches a socket. */
final class Frames {
    static final int KEY_MAX = 256, VALUE_MAX = 16_384, PAIRS_MAX = 128;
    private static final int LINE_MAX = 600;

    /** A reply: a simple text or a refusal, a number, the bytes of a bulk or null, or the parts of an array: key, value, key, value. */
    record Reply(char kind, String text, long number, byte[] value, List<byte[]> parts) {}

    /** Bytes that come in. */
    interface Source {
        /** The next byte. */
        int next() throws IOException;
    }

    /** What came in is no reply. */
    static final class NoReply extends IOException {
        NoReply() {
            super("this is no reply of ssikvd");
        }
    }

    private Frames() {}

    /** The request of these parts. */
    static byte[] encode(byte[]... parts) {
        var frame = new ByteArrayOutputStream();
        frame.writeBytes(("*" + parts.length + "\r\n").getBytes(StandardCharsets.US_ASCII));
        for (byte[] part : parts) {
            frame.writeBytes(("$" + part.length + "\r\n").getBytes(StandardCharsets.US_ASCII));
            frame.writeBytes(part);
            frame.writeBytes(new byte[] {'\r', '\n'});
        }
        return frame.toByteArray();
    }

    /** Takes the next reply. */
    static Reply read(Source source) throws IOException {
        String line = readLine(source), text = line.substring(1);
        return switch (line.charAt(0)) {
            case '+', '-' -> new Reply(line.charAt(0), text, 0, null, null);
            case ':' -> new Reply(':', null, number(text, Long.MAX_VALUE), null, null);
            case '$' -> new Reply('$', null, 0, text.equals("-1") ? null : readBulk(source, text), null);
            case '*' -> new Reply('*', null, 0, null, readArray(source, text));
            default -> throw new NoReply();
        };
    }

    private static String readLine(Source source) throws IOException {
        var line = new ByteArrayOutputStream();
        for (int last = 0, next; (next = need(source)) != '\n' || last != '\r'; last = next) {
            line.write(next);
            if (line.size() > LINE_MAX) {
                throw new NoReply();
            }
        }
        if (line.size() < 2) {
            throw new NoReply();
        }
        return line.toString(StandardCharsets.UTF_8).replaceFirst("\r$", "");
    }

    private static int need(Source source) throws IOException {
        int next = source.next();
        if (next < 0) {
            throw new EOFException("the server closed the connection: it has ended, or 128 are open");
        }
        return next;
    }

    private static byte[] readBulk(Source source, String text) throws IOException {
        byte[] value = new byte[(int) number(text, VALUE_MAX)];
        for (int at = 0; at < value.length; at++) {
            value[at] = (byte) need(source);
        }
        if (need(source) != '\r' || need(source) != '\n') {
            throw new NoReply();
        }
        return value;
    }

    private static List<byte[]> readArray(Source source, String text) throws IOException {
        var parts = new ArrayList<byte[]>();
        for (long left = number(text, 2 * PAIRS_MAX); left > 0; left--) {
            String line = readLine(source);
            if (line.charAt(0) != '$') {
                throw new NoReply();
            }
            parts.add(readBulk(source, line.substring(1)));
        }
        return parts;
    }

    private static long number(String text, long most) throws NoReply {
        long found = text.matches("\\d{1,19}") ? Long.parseUnsignedLong(text) : -1;
        if (found < 0 || found > most) {
            throw new NoReply();
        }
        return found;
    }

    /** The bytes of a key, or with least 0 of a bound. */
    static byte[] key(byte[] key, int least) {
        if (key.length < least || key.length > KEY_MAX) {
            throw new StoreException.Invalid("a key has 1 to " + KEY_MAX + " bytes, this one has " + key.length);
        }
        return key;
    }

    static byte[] value(byte[] value) {
        if (value.length > VALUE_MAX) {
            throw new StoreException.Invalid("a value has at most " + VALUE_MAX + " bytes, this one has " + value.length);
        }
        return value;
    }
}
