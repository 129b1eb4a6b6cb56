"""The page of a schedule: what `scq replay` prints, step by step, with what each step did in words.

Nothing is computed that the program decides: words, replies and which step comes next are read from
what it printed and from the schedule. The start is docs/MACHINE.md's.
"""
import re

from page import filled, page, plain
from verdict import Refusal, spelled

SETUP = re.compile(r"setup (\d{1,2}) (\d{1,2}) (\d{1,4}) (\d{1,19})")
STEP = re.compile(r"(\d{1,4}) (E[1-6]|D10|D[1-9])(?: (\d{1,2}))?(?: (\d{1,2}) (-|[0-9a-f]{2,32}))?")
LINE = re.compile(
    r"(\d{1,5}) (\d{1,4}) (E[1-6]|D10|D[1-9]) ring (\d{1,2}) head (\d{1,19}) tail (\d{1,19})"
    r" threshold (-?\d{1,19}) entries ([0-9 ]+?)"
    r"(?: (done \d+|got \d+ \S+|nothing|spent \d+))?"
)


class Setup:
    def __init__(self, line):
        it = SETUP.fullmatch(line)
        if not it:
            raise Refusal("line 1: no setup of a schedule")
        self.order, self.rings, self.seats, self.limit = (int(number) for number in it.groups())
        if not (1 <= self.order <= 4 and 1 <= self.rings <= 18 and 1 <= self.seats <= 4096):
            raise Refusal("line 1: no setup of a schedule")
        self.n = 1 << self.order
        self.slots = 2 * self.n
        self.reset = self.slots - 1 + max(self.n, self.seats)

    def slot(self, ticket):
        s, r = ticket % self.slots, self.order + 1
        return s if r <= 3 else s % (1 << (r - 3)) * 8 + (s >> (r - 3))

    def entry(self, word):
        """Cycle, whether it is safe, and the index or None."""
        index = word % self.slots
        safe = word // self.slots % 2 == 1
        return word // (2 * self.slots), safe, None if index == self.slots - 1 else index

    def start(self, ring):
        """Head, Tail, Threshold and the entries of a ring before the first step."""
        empty = 2 * self.slots - 1
        if ring:
            return [self.slots, self.slots, -1, [empty] * self.slots]
        entries = [empty] * self.slots
        for j in range(self.n):
            entries[self.slot(self.slots + j)] = 2 * self.slots + self.slots + j
        return [self.slots, self.slots + self.n, self.reset, entries]


def entry_text(setup, word):
    cycle, safe, index = setup.entry(word)
    held = "no index" if index is None else f"index {index}"
    return f"cycle {cycle}, {'safe' if safe else 'unsafe'}, {held}"


class Seat:
    """What a seat is in the middle of."""

    def __init__(self):
        self.call = self.ring = self.index = self.ticket = None


class Steps:
    """All steps as data, and what each did in words."""

    def __init__(self, setup):
        self.setup, self.rings, self.seats, self.steps = setup, {}, {}, []

    def ring(self, number):
        if number not in self.rings:
            self.rings[number] = self.setup.start(number)
        return self.rings[number]

    def add(self, at, given, printed, following):
        """One step: the schedule's words, those printed, and the seat's next step here."""
        seat_number, name = int(given.group(1)), given.group(2)
        ring, reply = int(printed.group(4)), printed.group(9)
        words = [int(word) for word in printed.group(8).split()]
        after = [int(printed.group(5)), int(printed.group(6)), int(printed.group(7)), words]
        if (int(printed.group(1)), int(printed.group(2)), printed.group(3)) != (
            at,
            seat_number,
            name,
        ):
            raise Refusal(f"step {at}: what was printed isn't of this schedule")
        if ring >= self.setup.rings or len(words) != self.setup.slots:
            raise Refusal(f"step {at}: what was printed isn't of this setup")
        before = self.ring(ring)
        seat = self.seats.setdefault(seat_number, Seat())
        if given.group(3) is not None:
            seat.ring, seat.ticket = ring, None
            seat.index = int(given.group(4)) if given.group(4) else None
            seat.call = (
                f"put of index {seat.index} into ring {ring}"
                if seat.index is not None
                else f"get from ring {ring}"
            )
        if seat.call is None or seat.ring != ring:
            raise Refusal(f"step {at}: seat {seat_number} is in no call on ring {ring}")
        if name in ("E1", "D2"):
            seat.ticket = before[1] if name == "E1" else before[0]
        self.steps.append(
            {
                "seat": seat_number,
                "name": name,
                "ring": ring,
                "head": after[0],
                "tail": after[1],
                "threshold": after[2],
                "entries": words,
                "call": seat.call,
                "ticket": None if seat.ticket is None else str(seat.ticket),
                "slot": None if seat.ticket is None else self.setup.slot(seat.ticket),
                "place": None if seat.ticket is None else seat.ticket % self.setup.slots,
                "next": following,
                "reply": reply,
                "says": self.says(name, seat, before, after, reply, following),
            }
        )
        for key in ("head", "tail"):
            self.steps[-1][key + "At"] = self.steps[-1][key] % self.setup.slots
            self.steps[-1][key] = str(self.steps[-1][key])
        self.rings[ring] = after
        if reply:
            seat.call = seat.ticket = None

    def says(self, name, seat, before, after, reply, following):
        setup, ticket = self.setup, seat.ticket
        slot = None if ticket is None else setup.slot(ticket)
        old = None if slot is None else before[3][slot]
        new = None if slot is None else after[3][slot]
        word = "" if old is None else entry_text(setup, old)
        goes = {
            "E1": "draws again",
            "D2": "goes on",
            "D3": "loads it again",
            "E2": "loads it again",
        }
        if name == "E1":
            text = f"draws ticket {ticket} from Tail: slot {slot} in cycle {ticket // setup.slots}"
        elif name == "E2":
            may = {"E4": "; it may place there", "E3": "; unsafe, so it asks Head"}
            may["E1"] = "; the slot is passed over"
            text = f"loads the entry of slot {slot}: {word}{may.get(following, '')}"
        elif name == "E3":
            may = {
                "E4": ": not past the ticket, it may place there",
                "E1": ": past the ticket, the slot is passed over",
            }
            text = f"loads Head: {before[0]}{may.get(following, '')}"
        elif name == "E4":
            text = f"places index {seat.index} at ticket {ticket}: slot {slot} is"
            text += f" {entry_text(setup, new)}"
            if old == new:
                text = f"finds the entry of slot {slot} changed, places nothing, and {goes['E2']}"
        elif name == "E5":
            text = f"loads Threshold: {before[2]}" + (", the reset value" if reply else "")
        elif name == "E6":
            text = f"stores the reset value in Threshold: {after[2]}"
        elif name == "D1":
            text = f"loads Threshold: {before[2]}" + (
                ", below 0: the ring is empty" if reply else ""
            )
        elif name == "D2":
            text = f"draws ticket {ticket} from Head: slot {slot} in cycle {ticket // setup.slots}"
        elif name == "D3":
            may = {
                "D4": "; its own cycle, so it takes",
                "D6": "; a later cycle",
                "D5": "; an earlier cycle, so it gives the slot up",
            }
            text = f"loads the entry of slot {slot}: {word}{may.get(following, '')}"
        elif name == "D4":
            text = f"takes index {setup.entry(old)[2]} out of slot {slot}: {entry_text(setup, new)}"
        elif name == "D5":
            kind = (
                "marks slot %d unsafe"
                if setup.entry(old)[2] is not None
                else "moves slot %d on, past any put of its ticket"
            )
            text = f"{kind % slot}: {entry_text(setup, new)}"
            if old == new:
                text = f"finds the entry of slot {slot} changed, and {goes['D3']}"
        elif name == "D6":
            ahead = before[1] > ticket + 1
            text = f"loads Tail: {before[1]}, " + (
                "ahead of the ticket: there may be more"
                if ahead
                else "not ahead of the ticket: the ring is empty"
            )
        elif name == "D7":
            text = f"brings Tail up from {before[1]} to {after[1]}"
            if before[1] == after[1]:
                text = f"finds Tail changed: {before[1]}"
        elif name == "D8":
            text = f"loads Head: {before[0]}"
        elif name == "D9":
            text = f"loads Tail: {before[1]}"
        else:
            text = f"lowers Threshold from {before[2]} to {after[2]}"
            if reply and before[2] <= 0:
                text += ": it was at most 0, so the ring is empty"
        ends = {"done": "Done at place", "got": "Got from place", "spent": "Spent, ticket"}
        if reply:
            word, *rest = reply.split(" ")
            text += (
                f". The call ends with {ends.get(word, 'Nothing')} {' '.join(rest[:1])}".rstrip()
            )
        return text + "."


def steps_of(schedule, printed):
    lines = schedule.split("\n")
    setup = Setup(lines[0])
    given = [STEP.fullmatch(line) for line in lines[1:] if line]
    shown = [LINE.fullmatch(line) for line in printed.split("\n") if line]
    if None in given:
        raise Refusal(f"line {given.index(None) + 2}: no step of a schedule")
    if None in shown:
        raise Refusal(f"what was printed, line {shown.index(None) + 1}: no step")
    if len(given) != len(shown):
        raise Refusal(f"the schedule has {len(given)} steps, and {len(shown)} were printed")
    following, after = [None] * len(given), {}
    for i in range(len(given) - 1, -1, -1):
        seat = given[i].group(1)
        following[i] = after.get(seat)
        after[seat] = given[i].group(2)
    steps = Steps(setup)
    for i, (row, line) in enumerate(zip(given, shown)):
        reply = line.group(9)
        steps.add(i + 1, row, line, None if reply else following[i])
    return steps


def longest_window(steps):
    """The most steps that follow one another and end no call: (first, how many)."""
    best, begin = (0, 0), 0
    for i, step in enumerate(steps):
        if step["reply"]:
            begin = i + 1
        elif i + 1 - begin > best[1]:
            best = (begin, i + 1 - begin)
    return best


def replayed_page(name, schedule, printed):
    steps = steps_of(schedule, printed)
    setup = steps.setup
    touched = sorted(steps.rings)
    first, long = longest_window(steps.steps)
    data = {
        "slots": setup.slots,
        "order": setup.order,
        "reset": setup.reset,
        "slotOf": [setup.slot(p) for p in range(setup.slots)],
        "rings": touched,
        "start": {
            r: dict(zip(("head", "tail", "threshold", "entries"), setup.start(r))) for r in touched
        },
        "seats": sorted(steps.seats),
        "steps": steps.steps,
    }
    for row in data["start"].values():
        row["headAt"], row["tailAt"] = row["head"] % setup.slots, row["tail"] % setup.slots
        row["head"], row["tail"] = str(row["head"]), str(row["tail"])
    title = f"{spelled(name).rsplit('/', 1)[-1]}"
    head = (
        f"{len(steps.steps):,} steps of {len(steps.seats)} seats on {len(touched)} rings; order"
        f" {setup.order}: {setup.n} indices, {setup.slots} slots a ring; Threshold's reset value is"
        f" {setup.reset}. The longest window of steps that end no call: {long} from step {first + 1}"
        " on."
    )
    body = filled("ring.html", title=plain(title), head=plain(head), steps=len(steps.steps))
    return page(f"scq replay: {title}", body, data, "ring.js")
