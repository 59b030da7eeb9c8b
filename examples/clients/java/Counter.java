import java.util.*;
import java.util.concurrent.*;
import java.util.concurrent.atomic.AtomicInteger;

/** Several workers add to one counter, each addition once: Counter PORT COUNTER WORKERS TIMES. */
final class Counter {
    public static void main(String[] words) throws Exception {
        String counter = words[1];
        int workers = Integer.parseInt(words[2]), times = Integer.parseInt(words[3]);
        AtomicInteger tries = new AtomicInteger(), added = new AtomicInteger();
        ExecutorService threads = Executors.newFixedThreadPool(workers);
        try (Store store = new Store("127.0.0.1", Integer.parseInt(words[0]), 64)) {
            List<Callable<Void>> all = new ArrayList<>();
            for (int worker = 0; worker < workers; worker++) {
                String name = counter + "." + worker + ".";
                all.add(() -> {
                    for (int turn = 0; turn < times; turn++) {
                        boolean isNew = store.once(name + turn, session -> {
                            tries.incrementAndGet();
                            Object count = session.ask("GET", counter);
                            return session.ask("SET", counter, count == null ? 1 : Long.parseLong((String) count) + 1);
                        });
                        if (isNew) added.incrementAndGet();
                    }
                    return null;
                });
            }
            for (Future<Void> one : threads.invokeAll(all)) one.get();
            Object count = store.transact(session -> session.ask("GET", counter));
            System.out.printf("added %s, counter %s%ntries %s%n", added, count, tries);
        } finally {
            threads.shutdown();
        }
    }
}
