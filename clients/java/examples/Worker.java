import java.nio.charset.StandardCharsets;
import java.util.Locale;
import ssikvd.Store;
import ssikvd.StoreException;
import ssikvd.Transaction;

/**
 * A queue of jobs and its workers.
 *
 * <pre>
 * Worker ADDRESS put MILLISECONDS ID..    enqueues a job for each ID, whose work is to wait so long; prints `put ID`
 * Worker ADDRESS work NAME LEASE          does one job after another until it is ended; the lease is in milliseconds; prints
 *                                         `NAME took ID`, then `NAME did ID`, or `NAME late ID` where another took it since
 * </pre>
 *
 * <p>A worker has a job until its lease ends; then another may take it. So a worker may be killed at any moment, and its job is done again.
 * <b>Work outside the store is done at least once</b>, and its result is written once. A lease is to be longer than the longest job: a
 * worker that is late has worked in vain. A job that ends each of its workers comes back each time; whoever minds counts the tries in its
 * value.
 *
 * <p>The store has no clock. Times are those of the machines that put and take jobs, and the premise is that their clocks differ by
 * far less than a lease. Where they differ by more, jobs are taken too late, or too early, so that their work is done twice. Even then no
 * result is written twice: that is decided by the job's key, which moves on each time it is taken, and by no clock.
 *
 * <p>Keys: {@code job:DUE:ID} holds the work; the job may be taken from DUE on, in milliseconds since 1970 with 15 digits. Taking it moves
 * it to the end of the lease, and finishing it deletes it. {@code put:ID} and {@code done:ID} say that this came to pass, {@code done:ID}
 * with the result; delete both in one transaction, once nobody puts this ID again. {@code finished:NAME} counts for each worker, so that
 * workers don't meet in one key. A worker's name is its own: no two have the same.
 */
public class Worker {
    private static final long PAUSE_MIN = 10;
    /** Milliseconds that a worker waits at most before it looks for a job again. */
    private static final long PAUSE_MAX = 500;

    /** A job that a worker has, while it stands at its place. */
    record Job(String place, String id, String payload) {}

    /** Another worker has taken the job since. */
    static final class Late extends RuntimeException {
        private static final long serialVersionUID = 1;
    }

    private final Store store;
    private final String name;
    private final long lease;

    Worker(Store store, String name, long lease) {
        this.store = store;
        this.name = name;
        this.lease = lease;
    }

    static String keyOf(long due, String id) {
        return String.format(Locale.ROOT, "job:%015d:%s", due, id);
    }

    static String text(byte[] bytes) {
        return new String(bytes, StandardCharsets.UTF_8);
    }

    /** Enqueues the job, unless it was put before. It may be taken at once. */
    static void put(Store store, String id, String payload) {
        store.once("put:" + id, transaction -> {
            transaction.set(keyOf(System.currentTimeMillis(), id), payload);
            return "";
        });
    }

    /**
     * Takes the job that has been due for longest; null where none is due.
     *
     * <p>Of two workers that take the same at once, one is refused, and begins again.
     */
    Job take(Transaction transaction) {
        long begun = System.currentTimeMillis(); // in this try, so that the lease is whole
        for (var due : transaction.range("job:", keyOf(begun, ""), 1)) {
            String place = text(due.key()), id = place.split(":", 3)[2];
            var job = new Job(keyOf(begun + lease, id), id, text(due.value()));
            transaction.delete(place);
            transaction.set(job.place(), job.payload());
            return job;
        }
        return null;
    }

    /** Writes the result, and deletes the job, unless another worker has taken it since. Did it? */
    boolean finish(Job job, String result) {
        try {
            String found = store.once("done:" + job.id(), transaction -> {
                if (transaction.get(job.place()) == null) {
                    throw new Late();
                }
                transaction.delete(job.place());
                String count = transaction.get("finished:" + name);
                transaction.set("finished:" + name, String.valueOf(count == null ? 1 : Integer.parseInt(count) + 1));
                return result;
            });
            return found.equals(result); // it may be that of another
        } catch (Late late) {
            return false;
        }
    }

    /** The work itself. It may be done again after this worker has died, so it does no harm twice. */
    String perform(Job job) throws InterruptedException {
        Thread.sleep(Long.parseLong(job.payload()));
        return "done by " + name;
    }

    /** Takes a job and does it. Was there one? */
    boolean workOnce() throws InterruptedException {
        Job job = store.transact(this::take);
        if (job != null) {
            System.out.println(name + " took " + job.id());
            boolean isDone = finish(job, perform(job));
            System.out.println(name + (isDone ? " did " : " late ") + job.id());
        }
        return job != null;
    }

    /** Works until the process is ended, and looks less often while there is nothing to do. */
    void work() throws InterruptedException {
        for (long pause = PAUSE_MIN; ; ) {
            boolean hasWorked = false;
            try {
                hasWorked = workOnce();
            } catch (StoreException.Invalid | StoreException.Refused error) {
                throw error; // a fault of this program
            } catch (StoreException error) {
                System.err.println(name + ": " + error.getMessage()); // a job that it may hold comes back once its lease has ended
            }
            if (hasWorked) {
                pause = PAUSE_MIN;
            } else {
                Thread.sleep(pause);
                pause = Math.min(2 * pause, PAUSE_MAX);
            }
        }
    }

    public static void main(String[] words) throws InterruptedException {
        var usual = Store.Options.DEFAULT;
        var options = new Store.Options(1, usual.connectTimeout(), usual.replyTimeout(), usual.deadline());
        try (Store store = Store.connect(words[0], options)) {
            if (words[1].equals("work")) {
                new Worker(store, words[2], Long.parseLong(words[3])).work();
            }
            for (int at = 3; at < words.length; at++) {
                put(store, words[at], words[2]);
                System.out.println("put " + words[at]);
            }
        }
    }
}
