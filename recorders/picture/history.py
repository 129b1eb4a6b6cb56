"""Recordings, as `scq judge` reads them, in one pass: merged by their stamps, in memory of a few
blocks of each file. A pass leaves marks behind (`Mark`) from which any stretch is read again.
"""
import bisect
import os
import re

from verdict import Refusal, spelled

SEATS = 4096  # how many seats a picture knows
MARKS = 256  # how many marks a pass leaves, at most
BLOCK = 1 << 22  # bytes that are held of all files together
LINE = 1024  # bytes of a line, at most

# A line that is none of a recording.
CONTENT = rb"(?:-|(?:[0-9a-f]{2}){1,64})"
START = rb"start \d{1,19} (?:put \d{1,19} " + CONTENT + rb"|get \d{1,19})"
END = rb"end \d{1,19} (?:done|nothing|spent|got (?:o|\d{1,19}) \d{1,19} " + CONTENT + rb")"
EVENT = rb"(?:\d{1,19} )?(?:" + START + rb"|" + END + rb")"
BAD = re.compile(rb"^(?!(?:" + EVENT + rb"|opening " + CONTENT + rb"|run [0-9]{1,19})$).*$", re.MULTILINE)


class Event:
    """One event. `rank` counts from 1 over all files, `line` from 1 in its file, `file` from 0.
    `words` are the fields behind the stamp. Of an event that belongs to a put `number` is which
    of its seat's puts it is, and `start` is the event that began its call."""

    __slots__ = ("rank", "stamp", "file", "line", "words", "seat", "number", "start")

    def __init__(self, rank, stamp, file, line, words, number, start):
        self.rank, self.stamp, self.file, self.line, self.words = rank, stamp, file, line, words
        self.seat, self.number, self.start = int(words[1]), number, start

    @property
    def is_start(self):
        return self.words[0] == b"start"

    @property
    def reply(self):
        """done, got, nothing or spent, of an end."""
        return None if self.is_start else self.words[2].decode()

    @property
    def named(self):
        """The put that a Got names: its seat, or None of an opening token, and its number."""
        if self.is_start or self.words[2] != b"got":
            return None
        seat = self.words[3]
        return None if seat == b"o" else int(seat), int(self.words[4])


def is_put(start):
    return start.words[2] == b"put"


def queue_of(start):
    return int(start.words[3])


def content_of(event):
    """The content of a put's start or of a Got, as hexadecimal digits, or `-`."""
    if event.is_start:
        return event.words[4].decode() if is_put(event) else None
    return event.words[5].decode() if event.words[2] == b"got" else None


class Source:
    """One file, read in blocks. `events` are those of its block: (stamp, file, line, words)."""

    def __init__(self, number, name, size, has_stamps):
        self.number, self.name, self.size, self.has_stamps = number, name, size, has_stamps
        self.at = self.first_line = self.block_at = self.block_line = 0
        self.last = -1  # the last stamp of the lines before
        self.events, self.rest, self.ended, self.openings = [], b"", False, []
        self.is_headed = False
        try:
            self.file = open(name, "rb", buffering=0)
        except OSError as fault:
            raise Refusal(f"{spelled(name)}: {fault.strerror}") from None

    def move(self, at, line):
        self.file.seek(at)
        self.at, self.first_line, self.rest, self.ended, self.events = at, line, b"", False, []
        self.last, self.is_headed = -1, False

    def fill(self):
        """Reads the next block with an event in it, if there is one."""
        while not self.events and not self.ended:
            try:
                more = self.file.read(self.size)
            except OSError as fault:
                raise Refusal(f"{spelled(self.name)}: {fault.strerror}") from None
            self.block_at, self.block_line = self.at, self.first_line
            text = self.rest + more
            cut = text.rfind(b"\n") + 1
            if not more:
                self.ended, cut = True, len(text)
            elif cut == 0 and len(text) > LINE:
                raise self.bad(self.first_line + 1)
            self.rest = text[cut:]
            self.parse(text[:cut])
            self.at += cut

    def bad(self, line):
        return Refusal(f"{spelled(self.name)} line {line}: not understood")

    def parse(self, text):
        number, line, last = self.number, self.first_line, self.last
        text = text.removesuffix(b"\n")
        if bad := BAD.search(text) if text else None:
            raise self.bad(line + 1 + text.count(b"\n", 0, bad.start()))
        lines = text.split(b"\n") if text else []
        add = self.events.append
        try:
            for it in lines:
                line += 1
                words = it.split(b" ")
                if words[0] == b"run":
                    self.head(line)
                elif self.has_stamps and words[0] != b"opening":
                    stamp = int(words.pop(0))
                    if stamp <= last:
                        raise ValueError
                    last = stamp
                    add((stamp, number, line, words))
                elif words[0] == b"opening":
                    self.opening(line, words)
                else:
                    last = line
                    add((line, number, line, words))
        except ValueError:
            raise self.bad(line) from None
        self.first_line, self.last = line, last

    def head(self, line):
        """The number of the run stands once, behind the opening tokens and before the events."""
        if self.is_headed or self.last >= 0 or self.events:
            raise self.bad(line)
        self.is_headed = True

    def opening(self, line, words):
        if len(words) != 2 or self.number or self.is_headed or self.last >= 0 or self.events:
            raise self.bad(line)
        if line > len(self.openings):
            self.openings.append(words[1])


class Mark:
    """Where a pass was: how many events it had seen, up to which stamp, where the block of each
    file began, and what each seat was in the middle of and had put."""

    def __init__(self, merged, ranks, stamp):
        self.rank, self.stamp = ranks, stamp
        self.blocks = [(s.block_at, s.block_line) for s in merged.sources]
        self.under_way, self.puts = dict(merged.under_way), dict(merged.puts)


class Merged:
    """All events of the files in the order of their stamps."""

    def __init__(self, names, mark=None):
        size = max(4096, BLOCK // len(names))
        stamped = has_stamps(names)
        self.sources = [Source(i, name, size, stamped) for i, name in enumerate(names)]
        self.under_way, self.puts, self.rank = {}, {}, 0
        self.stamp = -1
        if mark:
            self.rank, self.stamp = mark.rank, mark.stamp
            self.under_way = {s: Event(*it, None) for s, it in mark.under_way.items()}
            self.puts = dict(mark.puts)
            for source, (at, line) in zip(self.sources, mark.blocks):
                source.move(at, line)

    def close(self):
        for source in self.sources:
            source.file.close()

    def batches(self):
        """Lists of (stamp, file, line, words), each behind the one before."""
        first = self.stamp
        while True:
            for source in self.sources:
                source.fill()
            there = [s for s in self.sources if s.events]
            if not there:
                return
            until = min(s.events[-1][0] for s in there)
            batch = []
            for source in there:
                if source.events[-1][0] <= until:
                    batch += source.events
                    source.events = []
                else:
                    cut = bisect.bisect_right(source.events, until, key=lambda it: it[0])
                    batch += source.events[:cut]
                    del source.events[:cut]
            batch.sort(key=lambda it: it[0])
            if batch and batch[0][0] <= first:
                batch = [it for it in batch if it[0] > first]
            self.stamp = until
            yield batch

    def events(self, batch):
        """The events of a batch, one by one; what each seat is in the middle of goes with them."""
        under_way, puts, rank = self.under_way, self.puts, self.rank
        stamp, file, line = 0, 0, 0
        try:
            for stamp, file, line, words in batch:
                rank += 1
                seat = int(words[1])
                if words[0] == b"start":
                    number = None
                    if words[2] == b"put":
                        number = puts[seat] = puts.get(seat, 0) + 1
                    event = Event(rank, stamp, file, line, words, number, None)
                    under_way[seat] = event
                else:
                    start = under_way.pop(seat)
                    event = Event(rank, stamp, file, line, words, start.number, start)
                self.rank = rank
                yield event
        except (ValueError, IndexError):
            raise self.sources[file].bad(line) from None
        except KeyError:
            name = spelled(self.sources[file].name)
            raise Refusal(f"{name} line {line}: event out of place") from None


def has_stamps(names):
    """Whether the first event has a stamp."""
    for name in names:
        try:
            with open(name, "rb") as file:
                while True:
                    line = file.readline(LINE + 1)
                    if not line:
                        break
                    if not line.startswith((b"opening ", b"run ")):
                        return not line.startswith((b"start ", b"end "))
        except OSError as fault:
            raise Refusal(f"{spelled(name)}: {fault.strerror}") from None
    return True


class History:
    """What one pass over the files found: counts, the events at some places, marks."""

    def __init__(self, names, places):
        self.names, self.marks = names, []
        for name in names:
            if os.path.exists(name) and not os.path.isfile(name):
                raise Refusal(f"{spelled(name)}: is no file")
        self.found = {}
        self.calls = self.densest = 0
        self.densest_at = 1
        self.one_pass(set(places))

    def one_pass(self, places):
        merged = Merged(self.names)
        every, batches = 1, 0
        queues, seats = set(), set()
        lines = {}
        for file, line in places:
            lines.setdefault(file, set()).add(line)
        wanted = [lines.get(i, ()) for i in range(len(self.names))]
        under_way, puts, densest = merged.under_way, merged.puts, 0
        self.marks.append(Mark(merged, 0, -1))
        for batch in merged.batches():
            rank = merged.rank
            words, file, line = (), 0, 0
            try:
                # As in Merged.events, without an object for those that nobody asks for.
                for stamp, file, line, words in batch:
                    rank += 1
                    seat = int(words[1])
                    if words[0] == b"start":
                        if seat in under_way:
                            raise KeyError
                        seats.add(seat)
                        number = None
                        if words[2] == b"put":
                            number = puts[seat] = puts.get(seat, 0) + 1
                        under_way[seat] = (rank, stamp, file, line, words, number)
                        queues.add(words[3])
                        self.calls += 1
                        if len(under_way) > densest:
                            densest, self.densest_at = len(under_way), rank
                        if line in wanted[file]:
                            event = Event(rank, stamp, file, line, words, number, None)
                            self.found[file, line] = event
                    else:
                        start = under_way.pop(seat)
                        if line in wanted[file]:
                            start = Event(*start, None)
                            self.found[file, line] = Event(
                                rank, stamp, file, line, words, start.number, start
                            )
            except (ValueError, IndexError):
                raise merged.sources[file].bad(line) from None
            except KeyError:
                name = spelled(self.names[file])
                raise Refusal(f"{name} line {line}: event out of place") from None
            merged.rank = rank
            if len(seats) > SEATS or len(queues) > SEATS:
                raise Refusal(f"more than {SEATS} seats or queues: too many for a picture")
            batches += 1
            if batches % every == 0:
                self.marks.append(Mark(merged, rank, merged.stamp))
                if len(self.marks) > MARKS:
                    del self.marks[1::2]
                    every *= 2
        self.openings = merged.sources[0].openings
        self.events, self.densest = merged.rank, densest
        self.never_ended = {s: Event(*it, None) for s, it in under_way.items()}
        self.queues = len({int(q) for q in queues} | ({0} if self.openings else set()))
        self.puts, self.seats = dict(puts), seats
        merged.close()

    def replayed(self, rank, until):
        """What each seat was in the middle of before the event `rank`, and the events from it on up
        to `until`."""
        before = bisect.bisect_left([m.rank for m in self.marks], rank) - 1
        merged = Merged(self.names, self.marks[max(0, before)])
        under_way, events = None, []
        for batch in merged.batches():
            for event in merged.events(batch):
                if event.rank >= rank and under_way is None:
                    under_way = dict(merged.under_way)
                    if event.is_start:
                        del under_way[event.seat]
                    else:
                        under_way[event.seat] = event.start
                if event.rank >= rank:
                    events.append(event)
                if event.rank >= until:
                    break
            if merged.rank >= until:
                break
        merged.close()
        return under_way or {}, events

    def put(self, seat, number):
        """The start of this put, or None where there is none."""
        if number < 1 or self.puts.get(seat, 0) < number:
            return None
        before = [m for m in self.marks if m.puts.get(seat, 0) < number][-1]
        merged = Merged(self.names, before)
        try:
            for batch in merged.batches():
                for event in merged.events(batch):
                    if event.is_start and event.seat == seat and event.number == number:
                        return event
        finally:
            merged.close()
        return None

    def is_got(self, named):
        """Whether some Got names this put."""
        seat, number = named
        needle = b" got %s %d " % (b"o" if seat is None else b"%d" % seat, number)
        for name in self.names:
            with open(name, "rb") as file:
                tail = b""
                while block := file.read(1 << 20):
                    if needle in tail + block:
                        return True
                    tail = block[-len(needle) :]
        return False
