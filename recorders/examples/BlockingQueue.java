import java.nio.file.Path;
import java.util.concurrent.ArrayBlockingQueue;
import java.util.concurrent.CyclicBarrier;
import java.util.concurrent.ThreadLocalRandom;

/**
 * The platform's ArrayBlockingQueue, recorded by its {@code offer} and {@code poll}. With the word {@code wrong} a wrong queue takes
 * its place, whose {@code poll} now and then looks at the front, and takes whatever stands there then. With {@code exit} the stamps
 * are the clock's, the files are written as events come, and the program ends in the midst of calls.
 *
 * <pre>
 * javac -d classes recorders/Recorder.java recorders/examples/BlockingQueue.java
 * mkdir -p logs && java -cp classes BlockingQueue logs 62500 && ./scq judge logs/*.log
 * </pre>
 */
public final class BlockingQueue {
    private static final int THREADS = 4;

    private final ArrayBlockingQueue<Long> queue = new ArrayBlockingQueue<>(1024);
    private final boolean wrong;

    private BlockingQueue(boolean wrong) {
        this.wrong = wrong;
    }

    private Long poll() {
        if (!wrong || ThreadLocalRandom.current().nextInt(1000) != 0) {
            return queue.poll();
        }
        Long front = queue.peek();
        Thread.yield();
        return queue.poll() == null ? null : front;
    }

    private void run(Recorder.Seat seat, int calls, boolean exits) {
        for (int k = 0; k < calls; k++) {
            long value = seat.putStart(0);
            if (exits && k == calls / 2) {
                System.exit(0);
            }
            if (queue.offer(value)) {
                seat.putDone();
            } else {
                seat.putRefused();
            }
            seat.getStart(0);
            Long got = poll();
            if (got == null) {
                seat.getNothing();
            } else {
                seat.getGot(got);
            }
        }
    }

    public static void main(String[] words) throws Exception {
        if (words.length < 2) {
            System.err.println("BlockingQueue FOLDER CALLS [wrong | exit]");
            System.exit(2);
        }
        int calls = Integer.parseInt(words[1]);
        String way = words.length > 2 ? words[2] : "";
        boolean exits = way.equals("exit");
        BlockingQueue queue = new BlockingQueue(way.equals("wrong"));
        Recorder recorder = exits ? Recorder.byClock() : new Recorder();
        Recorder.Seat[] seats = new Recorder.Seat[THREADS];
        Thread[] threads = new Thread[THREADS];
        // All begin together: a thread that is done before the next has begun overlaps with none.
        CyclicBarrier start = new CyclicBarrier(THREADS);
        for (int i = 0; i < THREADS; i++) {
            Path name = Path.of(words[0], (i + 1) + ".log");
            Recorder.Seat seat = seats[i] = exits ? recorder.open(i, 1000, name) : recorder.seat(i, 4 * calls);
            boolean mine = exits && i == 0;
            threads[i] = new Thread(() -> {
                try {
                    start.await();
                } catch (Exception stopped) {
                    throw new IllegalStateException(stopped);
                }
                queue.run(seat, calls, mine);
            });
        }
        for (Thread thread : threads) {
            thread.start();
        }
        for (Thread thread : threads) {
            thread.join();
        }
        for (int i = 0; i < THREADS; i++) {
            seats[i].write(Path.of(words[0], (i + 1) + ".log"));
        }
    }
}
