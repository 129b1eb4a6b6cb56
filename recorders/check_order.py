"""Whether an order of a recording's calls is one of one thread.

    python3 recorders/check_order.py [--room N] ORDER FILE..

FILE.. are the files of the recording, in the order in which `scq judge` takes them. ORDER has a line `queue Q` for each queue and behind it,
in order, a line `S N` for each call: the call number N of seat S, where a seat's calls are counted from 1 over all queues, as they started.
What else stands in a line isn't read. Lines `opening J` may tell the opening tokens of queue 0.

In an order of one thread each call that ended stands once, but for refused ones; one that never ended may stand. A call that had ended before
another started stands before it. And each reply is that of a plain queue, to which the calls come one after the other: a get has got what
was put first of what is there, and Nothing where nothing is. With --room N the queues have so many places: a put that was refused stands too,
where all are taken, and any other where one is free.

It prints `an order of one thread`, or the first fault; the status is 0, or 1, and 2 where a file isn't understood. It knows nothing of how
the judge works, and takes the recording to be lawful.
"""

import sys
from collections import deque


class Call:
    """A call: its moments of start and end, None where it never ended, and its reply: `done`, `spent`, `nothing`, or what was got."""

    __slots__ = ("seat", "number", "queue", "value", "start", "end", "reply", "got")

    def __init__(self, seat, number, queue, value, start):
        self.seat, self.number, self.queue, self.value, self.start = seat, number, queue, value, start
        self.end = self.reply = self.got = None

    def __str__(self):
        return f"call {self.number} of seat {self.seat}"

    def stands(self, room):
        """Whether it has to stand in an order."""
        if self.reply == "spent":
            return room is not None and self.value is not None
        return self.end is not None


def events_of(texts):
    """The opening contents, and the words of all events, in the order of their stamps."""
    opening, events = [], []
    for text in texts:
        for line in text:
            words = line.split()
            if words[0] == "opening":
                opening.append(words[1])
            elif words[0] in ("start", "end"):
                events.append((len(events), words))
            elif words[0] != "run":
                events.append((int(words[0]), words[1:]))
    events.sort(key=lambda event: event[0])
    return opening, [words for _, words in events]


def calls_of(events):
    """The calls of each seat. A put's value is its name and content, a get has none."""
    calls, puts = {}, {}
    for moment, words in enumerate(events):
        seat = int(words[1])
        mine = calls.setdefault(seat, [])
        if words[0] == "start":
            value = None
            if words[2] == "put":
                puts[seat] = puts.get(seat, 0) + 1
                value = (seat, puts[seat], words[4])
            mine.append(Call(seat, len(mine) + 1, int(words[3]), value, moment))
            continue
        call = mine[-1]
        call.end, call.reply = moment, words[2]
        if words[2] == "got":
            call.got = (words[3] if words[3] == "o" else int(words[3]), int(words[4]), words[5])
    return calls


def orders_of(lines):
    """What an order lists: (number of the line, queue, words)."""
    queue = None
    for number, line in enumerate(lines, 1):
        words = line.split()
        if words[0] == "queue":
            queue = int(words[1])
        else:
            yield number, queue, words


def fault_of(opening, calls, lines, room=None):
    """The first fault of an order, or None."""
    held, stood, latest = {}, set(), {}
    tokens = deque(("o", number, content) for number, content in enumerate(opening))
    held[0] = deque(tokens)
    told = 0
    for number, queue, words in orders_of(lines):
        if words[0] == "opening":
            if queue != 0 or latest.get(0) is not None or int(words[1]) != told or told == len(opening):
                return f"line {number}: the opening tokens stand first, in order"
            told += 1
            continue
        mine = calls.get(int(words[0]), [])
        if not 1 <= int(words[1]) <= len(mine):
            return f"line {number}: there is no such call"
        call = mine[int(words[1]) - 1]
        if call.queue != queue:
            return f"line {number}: {call} is of queue {call.queue}"
        if call in stood:
            return f"line {number}: {call} stands twice"
        stood.add(call)
        if call.end is not None and call.end < latest.get(queue, -1):
            return f"line {number}: {call} had ended before one in front of it started"
        latest[queue] = max(latest.get(queue, -1), call.start)
        fault = reply_fault(call, held.setdefault(queue, deque()), room)
        if fault:
            return f"line {number}: {call} {fault}"
    for mine in calls.values():
        for call in mine:
            if call.stands(room) and call not in stood:
                return f"{call} doesn't stand in the order"
    return None


def reply_fault(call, held, room):
    """Makes a call of a plain queue that holds this: what is wrong with the reply, or None."""
    is_full = room is not None and len(held) >= room
    if call.value is not None and call.reply != "spent":
        held.append(call.value)
        return "is put, and the queue is full" if is_full else None
    if call.reply == "spent":
        return None if call.value is not None and is_full else "was refused, and the queue isn't full"
    if call.reply == "nothing":
        return "found nothing, and the queue isn't empty" if held else None
    front = held.popleft() if held else None
    if call.reply == "got" and call.got != front:
        return "has got what isn't in front"
    return None


def main(words):
    room = None
    if words[:1] == ["--room"] and len(words) > 1:
        room = int(words[1])
        words = words[2:]
    if len(words) < 2:
        raise ValueError("check_order.py [--room N] ORDER FILE..")
    texts = []
    for name in words:
        with open(name, encoding="ascii") as file:
            texts.append(file.read().splitlines())
    opening, events = events_of(texts[1:])
    fault = fault_of(opening, calls_of(events), texts[0], room)
    print(fault or "an order of one thread")
    return 1 if fault else 0


if __name__ == "__main__":
    try:
        sys.exit(main(sys.argv[1:]))
    except (OSError, ValueError, IndexError, KeyError) as error:
        print(f"check_order: not understood: {error}", file=sys.stderr)
        sys.exit(2)
