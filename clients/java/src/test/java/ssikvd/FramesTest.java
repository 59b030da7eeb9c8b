package ssikvd;

import java.io.ByteArrayInputStream;
import java.io.EOFException;
import java.io.IOException;
import java.nio.charset.StandardCharsets;
import java.nio.file.Files;
import java.nio.file.Path;
import java.util.ArrayList;
import java.util.Arrays;
import java.util.HexFormat;
import java.util.List;

/** The frames of ../frames.txt: {@code java -cp out ssikvd.FramesTest}. */
final class FramesTest {
    private static void expect(boolean holds, String text) {
        if (!holds) {
            throw new AssertionError(text);
        }
    }

    private static byte[] bytes(String word) {
        return word.equals("-") ? new byte[0] : HexFormat.of().parseHex(word);
    }

    private static String word(byte[] data) {
        return data.length == 0 ? "-" : HexFormat.of().formatHex(data);
    }

    /** The rows of a kind: the words before {@code =}, and those after it. */
    private static List<String[][]> rows(String kind) throws IOException {
        var found = new ArrayList<String[][]>();
        for (String line : Files.readAllLines(Path.of("../frames.txt"))) {
            if (line.startsWith(kind + " ")) {
                String[] sides = (line.substring(kind.length()) + " ").split(" =", 2);
                found.add(new String[][] {sides[0].trim().split(" "), sides.length > 1 ? sides[1].trim().split(" ") : new String[0]});
            }
        }
        expect(!found.isEmpty(), "no rows of " + kind);
        return found;
    }

    /** A reply in the words of a row. */
    private static String shown(Frames.Reply reply) {
        return switch (reply.kind()) {
            case '+' -> "done " + word(reply.text().getBytes(StandardCharsets.UTF_8));
            case '-' -> "refused " + word(reply.text().getBytes(StandardCharsets.UTF_8));
            case ':' -> "number " + reply.number();
            case '$' -> reply.value() == null ? "none" : "value " + word(reply.value());
            default -> reply.parts().stream().reduce("pairs", (text, part) -> text + " " + word(part), String::concat);
        };
    }

    private static Frames.Reply read(byte[] data) throws IOException {
        return Frames.read(new ByteArrayInputStream(data)::read);
    }

    private static void expectNoReply(byte[] data) throws IOException {
        try {
            read(data);
        } catch (Frames.NoReply right) {
            return;
        }
        throw new AssertionError("taken for a reply");
    }

    private static void requests() throws IOException {
        for (String[][] row : rows("request")) {
            byte[] found = Frames.encode(Arrays.stream(row[0]).map(FramesTest::bytes).toArray(byte[][]::new));
            expect(Arrays.equals(found, bytes(row[1][0])), Arrays.toString(row[0]));
        }
    }

    private static void replies() throws IOException {
        for (String[][] row : rows("reply")) {
            byte[] frame = bytes(row[0][0]);
            expect(shown(read(frame)).equals(String.join(" ", row[1])), row[0][0] + " is read as " + shown(read(frame)));
            for (int length = 0; length < frame.length; length++) {
                try {
                    read(Arrays.copyOf(frame, length));
                    throw new AssertionError("a part of " + row[0][0] + " is read");
                } catch (EOFException right) {
                    continue;
                }
            }
        }
    }

    private static void noReplies() throws IOException {
        for (String[][] row : rows("bad")) {
            expectNoReply(bytes(row[0][0]));
        }
        byte[] line = new byte[1_000];
        Arrays.fill(line, (byte) 'a');
        expectNoReply(line);
    }

    private static byte[] filled(int size, int first, int rest) {
        byte[] key = new byte[size];
        Arrays.fill(key, (byte) rest);
        key[0] = (byte) first;
        return key;
    }

    private static void keys() {
        expect(Arrays.equals(Store.after(bytes("61")), bytes("6100")), "after a");
        expect(Store.after(filled(256, 'a', 'a'))[255] == 'b', "after 256 bytes");
        expect(Arrays.equals(Store.after(filled(256, 'a', 0xff)), bytes("62")), "after a, ff ..");
        expect(Store.after(filled(256, 0xff, 0xff)) == null, "after the last");
        expect(Arrays.equals(Store.endOfPrefix(bytes("757365723a")), bytes("757365723b")), "user:");
        expect(Store.endOfPrefix(bytes("-")) == null && Store.endOfPrefix(bytes("ffff")) == null, "no end");
    }

    public static void main(String[] words) throws IOException {
        requests();
        replies();
        noReplies();
        keys();
    }
}
