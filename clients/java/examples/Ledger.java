import java.io.BufferedReader;
import java.io.IOException;
import java.io.InputStreamReader;
import java.nio.charset.StandardCharsets;
import java.util.ArrayList;
import java.util.List;
import java.util.Locale;
import java.util.function.Function;
import java.util.regex.Pattern;
import ssikvd.Store;
import ssikvd.StoreException;
import ssikvd.Transaction;

/**
 * A ledger: accounts, transfers in double entry, no overdraft.
 *
 * <pre>
 * Ledger ADDRESS transfer                          makes a transfer of each line of its input, `ID FROM TO AMOUNT`;
 *                                                  prints `ID ANSWER` for each
 * Ledger ADDRESS balances                          prints `ACCOUNT BALANCE` of each account, all of one moment
 * Ledger ADDRESS statement ACCOUNT FIRST COUNT     prints so many entries from the first on,
 *                                                  each as `NUMBER AMOUNT BALANCE ID OTHER`
 * </pre>
 *
 * <p>The answers: {@code moved}. {@code uncovered}: the account has less. {@code differs}: this ID was another transfer. {@code invalid}: a
 * name, an amount, one account twice. {@code later}: nothing was written. {@code unknown}: nobody knows. After {@code later} and
 * {@code unknown} the status is 1. Give the same lines again: what was moved isn't moved twice, and has the answer that it had.
 *
 * <p>Amounts are whole cents. Money comes from the account {@code outside} and goes there; it alone may be below zero. So all balances add
 * up to zero.
 *
 * <p>Keys: {@code account:NAME} holds the balance and how many entries there are, {@code entry:NAME:NUMBER} the amount, the balance behind
 * it, the ID and the other account, {@code transfer:ID} the answer and what was asked. A transfer writes five of them in one transaction.
 *
 * <p>Transfers of one account meet in its key, so that all but one of them begin again; those of other accounts don't. {@code balances}
 * reads all accounts in one transaction, which sees at most 32,767 of them; a statement costs what it prints, however long the account is.
 */
public class Ledger {
    private static final String OUTSIDE = "outside";
    /** An ID, two accounts, and an amount. No name has a colon, so that no account's entries stand among those of another. */
    private static final Pattern VALID = Pattern.compile("([\\w-]{1,64} ){3}[1-9]\\d{0,11}");

    /** What one asks for. */
    record Transfer(String id, String source, String target, long amount) {
        /** All but the ID, as it is kept with the answer. */
        String asked() {
            return source + " " + target + " " + amount;
        }
    }

    /** The balance, and how many entries there are; zero of both for an account that nobody has used. */
    record Account(long balance, long entries) {
        static Account of(Transaction transaction, String name) {
            String value = transaction.get("account:" + name);
            String[] parts = (value == null ? "0 0" : value).split(" ");
            return new Account(Long.parseLong(parts[0]), Long.parseLong(parts[1]));
        }
    }

    /** Adds an entry to the account, below zero where money leaves it. */
    static void post(Transaction transaction, String name, long amount, String id, String other) {
        var account = Account.of(transaction, name);
        long balance = account.balance() + amount, number = account.entries() + 1;
        transaction.set("account:" + name, balance + " " + number);
        transaction.set(String.format(Locale.ROOT, "entry:%s:%010d", name, number), amount + " " + balance + " " + id + " " + other);
    }

    /** Makes both entries, unless the source has less. Gives the answer, and what was asked. */
    static String move(Transaction transaction, Transfer transfer) {
        String source = transfer.source(), target = transfer.target();
        if (!source.equals(OUTSIDE) && Account.of(transaction, source).balance() < transfer.amount()) {
            return "uncovered " + transfer.asked();
        }
        post(transaction, source, -transfer.amount(), transfer.id(), target);
        post(transaction, target, transfer.amount(), transfer.id(), source);
        return "moved " + transfer.asked();
    }

    /** The answer to a transfer, made at most once however often it is asked for. */
    static String answer(Store store, String line) {
        String[] words = line.split(" ");
        if (!VALID.matcher(line).matches() || words[1].equals(words[2])) {
            return "invalid";
        }
        var transfer = new Transfer(words[0], words[1], words[2], Long.parseLong(words[3]));
        try {
            String[] said = store.once("transfer:" + transfer.id(), transaction -> move(transaction, transfer)).split(" ", 2);
            return said[1].equals(transfer.asked()) ? said[0] : "differs";
        } catch (StoreException.Lost error) {
            return "unknown";
        } catch (StoreException.Invalid | StoreException.Refused error) {
            throw error; // a fault of this program
        } catch (StoreException error) {
            System.err.println(transfer.id() + ": " + error.getMessage());
            return "later";
        }
    }

    /** Makes the transfers of the input one after another. Are all of them settled? */
    static boolean transfers(Store store, BufferedReader input) throws IOException {
        boolean isSettled = true;
        for (String line; (line = input.readLine()) != null; ) {
            String said = answer(store, line);
            System.out.println(line.split(" ", 2)[0] + " " + said);
            isSettled &= !said.equals("later") && !said.equals("unknown");
        }
        return isSettled;
    }

    static String text(byte[] bytes) {
        return new String(bytes, StandardCharsets.UTF_8);
    }

    /** Each account with its balance. They are of one snapshot, so they add up to zero beside any transfer. */
    static List<String> balances(Transaction transaction) {
        var rows = new ArrayList<String>();
        for (var pair : transaction.range("account:", "account;", Transaction.ALL)) {
            rows.add(text(pair.key()).substring("account:".length()) + " " + text(pair.value()).split(" ")[0]);
        }
        return rows;
    }

    /** So many entries of the account from the first, each with its number. */
    static List<String> statement(Transaction transaction, String name, int first, int count) {
        var rows = new ArrayList<String>();
        for (var pair : transaction.range(String.format(Locale.ROOT, "entry:%s:%010d", name, first), "entry:" + name + ";", count)) {
            rows.add(Long.parseLong(text(pair.key()).split(":")[2]) + " " + text(pair.value()));
        }
        return rows;
    }

    public static void main(String[] words) throws IOException {
        var usual = Store.Options.DEFAULT;
        var options = new Store.Options(1, usual.connectTimeout(), usual.replyTimeout(), usual.deadline());
        boolean isSettled = true;
        try (Store store = Store.connect(words[0], options)) {
            if (words[1].equals("transfer")) {
                isSettled = transfers(store, new BufferedReader(new InputStreamReader(System.in, StandardCharsets.UTF_8)));
            } else {
                Function<Transaction, List<String>> read = words[1].equals("balances")
                        ? Ledger::balances
                        : transaction -> statement(transaction, words[2], Integer.parseInt(words[3]), Integer.parseInt(words[4]));
                store.transact(read).forEach(System.out::println);
            }
        }
        System.exit(isSettled ? 0 : 1);
    }
}
