package ssikvd;

import java.io.IOException;
import java.net.InetSocketAddress;
import java.net.Socket;
import java.net.SocketTimeoutException;
import java.nio.charset.StandardCharsets;
import java.time.Duration;

/** A connection. It is whole while no reply is due; else it is of no more use. */
final class Session {
    private final Socket socket = new Socket();
    private final long timeout;
    private final byte[] received = new byte[1 << 16];
    private int at, size;
    boolean isWhole = true;

    Session(String host, int port, Duration connectTimeout, Duration replyTimeout) {
        timeout = replyTimeout.toNanos();
        try {
            socket.connect(new InetSocketAddress(host, port), (int) connectTimeout.toMillis());
            socket.setTcpNoDelay(true);
        } catch (IOException | IllegalArgumentException error) {
            close();
            throw new StoreException.Unreachable(String.valueOf(error.getMessage()), error);
        }
    }

    void close() {
        try {
            socket.close();
        } catch (IOException ignored) {
            isWhole = false;
        }
    }

    /** Sends one request and gives its reply. Throws its refusal, or Unreachable. */
    Frames.Reply ask(byte[]... parts) {
        if (!isWhole) {
            throw new StoreException.Unreachable("the connection was lost", null);
        }
        isWhole = false;
        Frames.Reply reply;
        try {
            socket.getOutputStream().write(Frames.encode(parts));
            long end = System.nanoTime() + timeout;
            reply = Frames.read(() -> next(end));
            if (at < size) {
                throw new Frames.NoReply();
            }
        } catch (IOException error) {
            throw new StoreException.Unreachable(String.valueOf(error.getMessage()), error);
        }
        isWhole = true;
        if (reply.kind() == '-') {
            throw StoreException.of(reply.text());
        }
        return reply;
    }

    Frames.Reply ask(String word) {
        return ask(word.getBytes(StandardCharsets.US_ASCII));
    }

    /** The next byte; -1 where the server has closed the connection. */
    private int next(long end) throws IOException {
        if (at == size) {
            long left = (end - System.nanoTime()) / 1_000_000;
            if (left <= 0) {
                throw new SocketTimeoutException("no reply in time");
            }
            socket.setSoTimeout((int) Math.min(left, Integer.MAX_VALUE));
            at = 0;
            size = Math.max(0, socket.getInputStream().read(received));
        }
        return at < size ? received[at++] & 0xff : -1;
    }

    /** Sends COMMIT. Throws its refusal, Unreachable before it is sent, or Lost where the outcome isn't known. */
    void commit() {
        boolean wasWhole = isWhole;
        try {
            ask("COMMIT");
        } catch (StoreException.Unreachable error) {
            throw wasWhole ? new StoreException.Lost(error) : error;
        } catch (StoreException.Refused error) {
            throw error.getMessage().equals("STORE fault") ? new StoreException.Lost(error) : error;
        }
    }
}
