package ssikvd;

import java.util.HexFormat;

/** What this package throws. */
public abstract sealed class StoreException extends RuntimeException {
    private StoreException(String text, Throwable cause) {
        super(text, cause);
    }

    /** COMMIT met other commits, until the deadline. Nothing was written. */
    public static final class Conflict extends StoreException {
        /** The key that another transaction has overwritten; null where a pivot is told. */
        public final byte[] key;
        /** "self", or the number of a transaction that would be a pivot; null where a key is told. */
        public final String pivot;

        Conflict(String text, byte[] key, String pivot) {
            super(text, null);
            this.key = key;
            this.pivot = pivot;
        }
    }

    /** A limit was met. Nothing was written. */
    public static final class Full extends StoreException {
        /** Which: transactions, writes, marks, log, numbers or connections. */
        public final String limit;

        Full(String limit) {
            super("FULL " + limit, null);
            this.limit = limit;
        }
    }

    /** The store is stopped by a fault of its device. Nothing was written. */
    public static final class Stopped extends StoreException {
        Stopped() {
            super("STORE stopped", null);
        }
    }

    /** Another refusal of the server's, in the words of the message: a fault of the program, or of this package. */
    public static final class Refused extends StoreException {
        Refused(String text) {
            super(text, null);
        }
    }

    /** COMMIT was sent, and its outcome isn't known. {@code once} with the same key settles it. */
    public static final class Lost extends StoreException {
        Lost(Exception cause) {
            super("the outcome of COMMIT isn't known: " + cause.getMessage(), cause);
        }
    }

    /** No connection, or one that was lost before COMMIT was sent. Nothing was written. */
    public static final class Unreachable extends StoreException {
        Unreachable(String text, Exception cause) {
            super(text, cause);
        }
    }

    /** A call that breaks a limit or comes after the end. Nothing was sent. */
    public static final class Invalid extends StoreException {
        Invalid(String text) {
            super(text, null);
        }
    }

    /** The exception of a refusal. */
    static StoreException of(String text) {
        String[] words = text.split(" ");
        if (text.matches("CONFLICT overwritten ([0-9a-f]{2})+")) {
            return new Conflict(text, HexFormat.of().parseHex(words[2]), null);
        } else if (text.matches("CONFLICT pivot (self|\\d+)")) {
            return new Conflict(text, null, words[2]);
        } else if (text.matches("FULL \\w+")) {
            return new Full(words[1]);
        }
        return text.equals("STORE stopped") ? new Stopped() : new Refused(text);
    }

    /** Whether a transaction begins again where this ended a try of it. */
    boolean beginsAgain() {
        return this instanceof Conflict || this instanceof Unreachable || this instanceof Full full && full.limit.equals("transactions");
    }
}
