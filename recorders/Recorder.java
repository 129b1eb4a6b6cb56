import java.io.FileOutputStream;
import java.io.IOException;
import java.lang.invoke.MethodHandles;
import java.lang.invoke.VarHandle;
import java.nio.charset.StandardCharsets;
import java.nio.file.Files;
import java.nio.file.Path;
import java.time.Instant;
import java.util.ArrayList;
import java.util.List;
import java.util.concurrent.atomic.AtomicLong;

/**
 * A recorder of the calls that threads make of first-in-first-out queues. It needs nothing but the platform, 9 or later. What it writes
 * {@code scq judge} reads: a file for each thread, in its head the number of the run, and then a line for each event, with its stamp in
 * front.
 *
 * <ol>
 * <li>One Recorder for all threads. One Seat for each thread, made by {@code seat} with a number of its own and room for all
 * events that it will make: two for each call.
 * <li>The queue carries long values, which the recorder gives: {@code long value = seat.putStart(queue)}, then put the value,
 * then {@code seat.putDone()}, or {@code seat.putRefused()} where the queue was full. A value that was refused is not put
 * again: each try is a put of its own, with a number of its own. A queue of other values carries this one beside its own.
 * <li>{@code seat.getStart(queue)}, then get, then {@code seat.getGot(value)} or {@code seat.getNothing()}.
 * <li>After the run {@code seat.write(Path.of("1.log"))} for each seat, and {@code scq judge 1.log 2.log ..}.
 * </ol>
 *
 * A queue that may hang: {@code open} in place of {@code seat}, and {@code seat.close()} at the end. Such a seat writes its file
 * whenever its room is full, at the end of a call, and what is left when the platform shuts down, as by {@code exit} or SIGINT. Until
 * then the last line of the file is unfinished, so that {@code scq judge} refuses what SIGKILL or {@code halt} has cut. A seat with events
 * that was never written is told on standard error then.
 *
 * <p>Stamps. {@code new Recorder()} stamps by a counter that all threads share: a full barrier, which makes a call's stores seen
 * before its End, and so hides what a missing barrier does. {@code Recorder.byClock()} stamps by {@code System.nanoTime}, the same for
 * all threads: a Start waits until the thread's stores are seen, an End doesn't; of equal readings a Start comes before an End.
 */
public final class Recorder {
    /** A value is the number of its put, and above these bits its seat: seats are below 2^23, puts of a seat below 2^40. */
    private static final int NUMBER_BITS = 40;

    /** A stamp of the clock is its reading, then a bit that is set at an End, then the lane: one of so many for each seat. */
    private static final int LANE_BITS = 12;

    /** An End's line without so many bytes is none, and neither is the head. */
    private static final int HELD = 2;

    private static final byte PUT = 0, GET = 1, DONE = 2, REFUSED = 3, GOT = 4, NOTHING = 5;

    private static final VarHandle COUNT;

    static {
        try {
            COUNT = MethodHandles.lookup().findVarHandle(Seat.class, "count", int.class);
        } catch (ReflectiveOperationException error) {
            throw new ExceptionInInitializerError(error);
        }
    }

    private final AtomicLong next = new AtomicLong();
    private final boolean byClock;
    private final long first = System.nanoTime() - 1;

    /** All seats, and whether the platform shuts down. */
    private final List<Seat> seats = new ArrayList<>();
    private volatile boolean ends;

    /** The number of this run: of microseconds, and behind them three digits of the process's number. */
    private final long run = runNumber();

    public Recorder() {
        this(false);
    }

    /** Stamps by the clock. */
    public static Recorder byClock() {
        return new Recorder(true);
    }

    private Recorder(boolean byClock) {
        this.byClock = byClock;
        Runtime.getRuntime().addShutdownHook(new Thread(this::writeRest));
    }

    private static long runNumber() {
        Instant now = Instant.now();
        long micros = now.getEpochSecond() * 1_000_000 + now.getNano() / 1_000;
        return micros * 1_000 + ProcessHandle.current().pid() % 1_000;
    }

    public Seat seat(int seat, int room) {
        return new Seat(seat, room, null);
    }

    /** A seat whose events go to this file. */
    public Seat open(int seat, int room, Path name) throws IOException {
        return new Seat(seat, Math.max(room, 4), new FileOutputStream(name.toFile()));
    }

    /** Writes what is left of each open file, up to one moment: what was stamped later may be missing elsewhere. */
    private void writeRest() {
        synchronized (seats) {
            ends = true;
            long until = -1;
            for (Seat seat : seats) {
                until = Math.max(until, seat.lastStamp());
            }
            for (Seat seat : seats) {
                seat.writeRest(until);
            }
        }
    }

    /** What one thread records. */
    public final class Seat {
        private final long seat, lane;
        private final long[] stamps, whats;
        private final byte[] kinds;
        private final FileOutputStream file;
        private byte[] held;
        private boolean isWritten;
        private int count, lost;
        private long puts, last = -1, lastWritten = -1;

        private Seat(int seat, int room, FileOutputStream file) {
            this.seat = seat;
            this.file = file;
            stamps = new long[room];
            whats = new long[room];
            kinds = new byte[room];
            held = head().getBytes(StandardCharsets.US_ASCII);
            synchronized (seats) {
                lane = seats.size();
                if (lane >= 1 << LANE_BITS) {
                    throw new IllegalStateException("more than 4096 seats");
                }
                seats.add(this);
            }
            if (file != null) {
                try {
                    writeLines("", false);
                } catch (IOException error) {
                    throw new java.io.UncheckedIOException(error);
                }
            }
        }

        private String head() {
            return "run " + run + "\n";
        }

        private long stamp(boolean isEnd) {
            if (!byClock) {
                return next.getAndIncrement();
            }
            long stamp;
            do {
                if (isEnd) {
                    // What the thread did before isn't moved behind the reading.
                    VarHandle.acquireFence();
                    VarHandle.releaseFence();
                }
                long tick = System.nanoTime() - first;
                if (!isEnd) {
                    // What the thread does next isn't begun before it.
                    VarHandle.fullFence();
                }
                stamp = (tick << 1 | (isEnd ? 1 : 0)) << LANE_BITS | lane;
            } while (stamp <= last);
            last = stamp;
            return stamp;
        }

        private void note(byte kind, long what) {
            long stamp = stamp(kind > GET);
            int at = count;
            if (at == stamps.length) {
                lost++;
                return;
            }
            stamps[at] = stamp;
            whats[at] = what;
            kinds[at] = kind;
            COUNT.setRelease(this, at + 1);
            if (file != null && kind > GET && stamps.length - count < 2) {
                makeRoom();
            }
        }

        /** A put into the queue begins. The value to put. */
        public long putStart(int queue) {
            puts++;
            note(PUT, queue);
            return seat << NUMBER_BITS | puts;
        }

        public void putDone() {
            note(DONE, 0);
        }

        public void putRefused() {
            note(REFUSED, 0);
        }

        public void getStart(int queue) {
            note(GET, queue);
        }

        public void getGot(long value) {
            note(GOT, value);
        }

        public void getNothing() {
            note(NOTHING, 0);
        }

        /**
         * Writes the events of a seat that has no file open. The content is {@code -}: which put a value is from is all that it says. Where
         * the seat had too little room it throws, and the file ends with a line that {@code scq judge} refuses.
         */
        public void write(Path name) throws IOException {
            String cut = lost > 0 ? "cut: events without room " + lost + "\n" : "";
            isWritten = true;
            Files.write(name, (head() + lines(Long.MAX_VALUE) + cut).getBytes(StandardCharsets.US_ASCII));
            if (lost > 0) {
                throw new IOException(name + " is cut: the seat needs room for " + ((long) count + lost) + " events");
            }
        }

        /** Writes the rest of a seat that has its file open. */
        public void close() throws IOException {
            synchronized (this) {
                if (!ends && !isWritten) {
                    writeLines(lines(Long.MAX_VALUE), true);
                    file.close();
                    isWritten = true;
                    COUNT.setRelease(this, 0);
                }
            }
        }

        /** Writes what the seat holds. Where the platform shuts down the thread goes no further. */
        private void makeRoom() {
            try {
                synchronized (this) {
                    if (!ends) {
                        lastWritten = stamps[count - 1];
                        writeLines(lines(Long.MAX_VALUE), false);
                        COUNT.setRelease(this, 0);
                        return;
                    }
                }
                Thread.sleep(Long.MAX_VALUE);
            } catch (IOException error) {
                throw new java.io.UncheckedIOException(error);
            } catch (InterruptedException error) {
                throw new IllegalStateException(error);
            }
        }

        private synchronized long lastStamp() {
            int made = (int) COUNT.getAcquire(this);
            return made > 0 ? stamps[made - 1] : lastWritten;
        }

        private synchronized void writeRest(long until) {
            int made = (int) COUNT.getAcquire(this);
            if (file == null && made > 0 && !isWritten) {
                System.err.println("scq recorder: of seat " + seat + ", " + made + " events were never written");
            }
            if (file != null && !isWritten) {
                try {
                    writeLines(lines(until), true);
                } catch (IOException error) {
                    System.err.println("scq recorder: of seat " + seat + " a part isn't written: " + error);
                }
            }
        }

        /** Writes what was held back and these lines, but for the last bytes, where more may come. */
        private void writeLines(String lines, boolean isLast) throws IOException {
            byte[] more = lines.getBytes(StandardCharsets.US_ASCII);
            byte[] all = java.util.Arrays.copyOf(held, held.length + more.length);
            System.arraycopy(more, 0, all, held.length, more.length);
            int until = isLast ? all.length : all.length - HELD;
            file.write(all, 0, until);
            held = java.util.Arrays.copyOfRange(all, until, all.length);
        }

        /** The lines of the events whose stamps are at most this. */
        private String lines(long until) {
            StringBuilder lines = new StringBuilder();
            int made = (int) COUNT.getAcquire(this);
            for (int i = 0; i < made && stamps[i] <= until; i++) {
                lines.append(stamps[i]).append(' ');
                addLine(lines, kinds[i], whats[i]);
                lines.append('\n');
            }
            return lines.toString();
        }

        private void addLine(StringBuilder to, byte kind, long what) {
            to.append(kind <= GET ? "start " : "end ").append(seat);
            switch (kind) {
                case PUT:
                    to.append(" put ").append(what).append(" -");
                    break;
                case GET:
                    to.append(" get ").append(what);
                    break;
                case DONE:
                    to.append(" done");
                    break;
                case REFUSED:
                    to.append(" spent");
                    break;
                case GOT:
                    to.append(" got ").append(what >>> NUMBER_BITS).append(' ').append(what & ((1L << NUMBER_BITS) - 1)).append(" -");
                    break;
                default:
                    to.append(" nothing");
            }
        }
    }
}
