"""A recorder of the calls that threads or processes make of first-in-first-out queues. It needs nothing but Python 3.7 or later. What it
writes `scq judge` reads: a file for each seat, in its head the number of the run, and then a line for each event, with its stamp in front.

How to use it:
1. One Recorder for all, also for processes, which take it along. One seat for each thread, opened by it:
   `with recorder.open(number, "1.log") as seat:`, with a number of its own.
2. The queue carries whole numbers, which the recorder gives: `value = seat.put_start(queue)`, then put the value, then
   `seat.put_done()`, or `seat.put_refused()` where the queue was full. A value that was refused is not put again: each try is a put of its
   own, with a number of its own. A queue of other values carries this one beside its own.
3. `seat.get_start(queue)`, then get, then `seat.get_got(value)` or `seat.get_nothing()`.
4. After the run, when the seats are closed, `scq judge 1.log 2.log ..`.

Until a seat is closed the last line of its file is unfinished, so that `scq judge` refuses what a signal or `os._exit` has cut. A child of
`fork` leaves the files of its parent alone; what it records on a seat of its parent is told on stderr, and refused by `scq judge`.

Stamps are of the system's steady clock, the same for all processes; of equal readings a Start comes before an End.
"""

import os
import sys
import time

NUMBER_BITS = 40
"""A value is the number of its put, and above these bits its seat."""

LANE_BITS = 12
"""A stamp is the clock's reading, then a bit that is set at an End, then the seat, whose number is below 4096."""

HELD = 2
"""An End's line without so many bytes is none, and neither is the head."""


class Recorder:
    """What stamps the events of all seats, and the number of the run: of microseconds, and behind them three digits of the process's."""

    def __init__(self):
        self.first = time.monotonic_ns() - 1
        self.run = time.time_ns() // 1000 * 1000 + os.getpid() % 1000

    def open(self, number, name, room=100000):
        """A seat of this number, that writes this file: whenever it holds so many events, at the end of a call, and when it is closed."""
        return Seat(self, number, name, room)


class Seat:
    """What one thread records."""

    def __init__(self, recorder, number, name, room):
        if not 0 <= number < 1 << LANE_BITS:
            raise ValueError("a seat's number is below 4096")
        self._recorder, self._number, self._room = recorder, number, room
        self._puts, self._last, self._events = 0, 0, []
        self._is_copy = False
        self._file = os.open(name, os.O_WRONLY | os.O_CREAT | os.O_TRUNC, 0o666)
        head = b"run %d\n" % recorder.run
        os.write(self._file, head[:HELD])
        self._held = head[HELD:]
        os.register_at_fork(after_in_child=self._in_child)

    def __enter__(self):
        return self

    def __exit__(self, *_):
        self.close()

    def put_start(self, queue):
        """A put into the queue begins. The value to put."""
        self._puts += 1
        self._note(0, f"start {self._number} put {queue} -")
        return self._number << NUMBER_BITS | self._puts

    def put_done(self):
        self._end("done")

    def put_refused(self):
        self._end("spent")

    def get_start(self, queue):
        self._note(0, f"start {self._number} get {queue}")

    def get_got(self, value):
        self._end(f"got {value >> NUMBER_BITS} {value & (1 << NUMBER_BITS) - 1} -")

    def get_nothing(self):
        self._end("nothing")

    def close(self):
        """Writes the rest."""
        if self._file is not None:
            self._write(True)
            os.close(self._file)
            self._file = None

    def _end(self, reply):
        self._note(1, f"end {self._number} {reply}")
        if len(self._events) >= self._room:
            self._write(False)

    def _note(self, is_end, line):
        stamp = 0
        while stamp <= self._last:
            stamp = (time.monotonic_ns() - self._recorder.first << 1 | is_end) << LANE_BITS | self._number
        self._last = stamp
        self._events.append(f"{stamp} {line}\n")

    def _in_child(self):
        self._is_copy, self._held = True, b""
        self._events.clear()

    def _write(self, is_last):
        lines = self._held + "".join(self._events).encode()
        if self._is_copy and self._events:
            fault = f"of seat {self._number}, {len(self._events)} events were recorded by a child, and aren't in the parent's file"
            print(f"scq recorder: {fault}", file=sys.stderr)
            lines, is_last = b"cut: events of a child\n", True
        self._events.clear()
        until = len(lines) if is_last else len(lines) - HELD
        self._held = lines[max(until, 0):]
        lines = lines[:max(until, 0)]
        while lines:
            lines = lines[os.write(self._file, lines):]
