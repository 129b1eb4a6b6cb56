"""Whether the events that a verdict names show what it says, and what they show in words."""
from history import content_of, is_put, queue_of
from verdict import Refusal


class Shown:
    """What is found of one aspect that fails: `events` are what is marked, each (event, words),
    that which breaks the aspect first; `says` are sentences, and `wrong` those that aren't so."""

    def __init__(self):
        self.events, self.says, self.wrong = [], [], []

    def mark(self, event, words):
        if all((event.file, event.line) != (other.file, other.line) for other, _ in self.events):
            self.events.append((event, words))

    def claim(self, is_so, words, not_so):
        (self.says if is_so else self.wrong).append(words if is_so else not_so)


def put_name(named):
    seat, number = named
    return f"opening token {number}" if seat is None else f"put {number} of seat {seat}"


class Opening:
    """An opening token: it stood in queue 0 before the first event."""

    rank, seat = 0, None

    def __init__(self, file, line, content):
        self.file, self.line, self.number, self.content = file, line, line - 1, content


def event_at(history, place):
    """The event, or the opening token, at a place."""
    file, line = place
    if place in history.found:
        return history.found[place]
    if file == 0 and 1 <= line <= len(history.openings):
        return Opening(file, line, history.openings[line - 1].decode())
    raise Refusal(f"the verdict names a line that isn't there: file {file + 1} line {line}")


def named_by(it):
    """The put that an event is of or names."""
    if isinstance(it, Opening):
        return None, it.number
    if it.named:
        return it.named
    start = it if it.is_start else it.start
    return (it.seat, it.number) if is_put(start) else None


def check(history, aspect):
    shown = Shown()
    events = [event_at(history, place) for place in aspect.places]
    first = events[0]
    if isinstance(first, Opening):
        shown.wrong.append("The event that breaks the aspect is an opening token.")
        return shown
    shown.mark(first, "breaks it")
    rule = {
        "fresh": fresh,
        "once": once,
        "in order": in_order,
        "empty": empty,
        "refused": refused,
        "full": full,
        "opening in order": opening,
    }.get(aspect.rule)
    if rule is None:
        for it in events[1:]:
            shown.mark(it, "named beside it")
        shown.says.append(
            "The picture doesn't know this aspect: it shows the events that are named."
        )
    else:
        rule(history, aspect, first, events[1:], shown)
    return shown


def is_got(event):
    return event.reply == "got"


def needs_got(first, shown):
    if is_got(first):
        return True
    shown.wrong.append(f"Event {first.rank} is not a get that got a value.")
    return False


def fresh(history, aspect, first, others, shown):
    if not needs_got(first, shown):
        return
    seat, number = first.named
    name, queue = put_name(first.named), queue_of(first.start)
    got = f"The get of seat {first.seat} from queue {queue} took {name}"
    if seat is None:
        there = history.openings[number].decode() if number < len(history.openings) else None
        where, start = 0, None
    else:
        start = history.put(seat, number)
        there = content_of(start) if start else None
        where = queue_of(start) if start else None
    if there is None:
        shown.says.append(f"{got}, which isn't in the recording.")
        return
    if start:
        shown.mark(start, f"{name} begins")
    for event in others:
        shown.mark(event, "named beside it")
    if start and start.rank > first.rank:
        shown.says.append(f"{got}, which began only after that get had ended.")
    elif where != queue:
        shown.says.append(f"{got}, which went into queue {where}.")
    elif there != content_of(first):
        shown.says.append(f"{got} with another content than was put.")
    else:
        shown.wrong.append(f"{got}, which was put before that get ended: that is fresh.")


def once(history, aspect, first, others, shown):
    if not needs_got(first, shown):
        return
    name = put_name(first.named)
    before = [e for e in others if not isinstance(e, Opening) and e.named == first.named]
    before = [e for e in before if e.rank < first.rank]
    for event in before[:1]:
        shown.mark(event, f"took {name} before")
    shown.claim(
        bool(before),
        f"The get of seat {first.seat} took {name}, which the get of seat"
        f" {before[0].seat if before else '?'} had taken before.",
        f"No event that the verdict names took {name} before event {first.rank}.",
    )


def waiting_put(history, others, own):
    """Of the events that are named, the end of the put that waited and the get that took it."""
    end = get = None
    for it in others:
        if isinstance(it, Opening) or it.reply == "done":
            if named_by(it) != own:
                end = it
        elif is_got(it) and it.named != own:
            get = it
    return end, get


def took_later(history, aspect, first, end, get, queue, shown):
    """That the put that waited is of this queue, and that nobody had begun to take it when `first`
    ended."""
    named = named_by(end)
    name = put_name(named)
    where = 0 if isinstance(end, Opening) else queue_of(end.start)
    if where != queue:
        shown.wrong.append(
            f"{name} went into queue {where}, and event {first.rank} is of queue {queue}."
        )
    if get is not None:
        shown.mark(get.start, f"the get that takes {name} begins")
        shown.mark(get, f"takes {name}")
        shown.claim(
            get.named == named and get.start.rank > first.rank,
            f"The get that took {name} began only after that, at event {get.start.rank}.",
            f"Event {get.rank} is no get of {name} that began after event {first.rank}.",
        )
    elif aspect.never:
        pending = [
            s
            for s in history.never_ended.values()
            if not is_put(s) and queue_of(s) == queue and s.rank < first.rank
        ]
        waiting = 1 if aspect.waiting is None else aspect.waiting
        if history.is_got(named):
            shown.wrong.append(f"{name} was got, and the verdict says that it never was.")
        values = "1 value" if waiting == 1 else f"{waiting} values"
        gets = (
            "1 get that never ended was"
            if len(pending) == 1
            else f"{len(pending)} gets that never ended were"
        )
        gets = gets if pending else "no get that never ended was"
        shown.claim(
            waiting > len(pending),
            f"No get in the recording took {name}: {values} waited, and {gets} under way.",
            f"{values} waited, but {gets} under way, which may have taken them.",
        )
    else:
        shown.wrong.append(f"The verdict doesn't say what became of {name}.")


def in_order(history, aspect, first, others, shown):
    if not needs_got(first, shown):
        return
    own = first.named
    end, get = waiting_put(history, others, own)
    if end is None:
        shown.wrong.append("The verdict names no put that waited.")
        return
    name = put_name(named_by(end))
    start = history.put(*own) if own[0] is not None else None
    # Of the queue that the value went into, whichever the get was from.
    queue = queue_of(start) if start else 0
    shown.mark(end, f"{name} had ended" if not isinstance(end, Opening) else f"{name} stood there")
    if start:
        shown.mark(start, f"{put_name(own)} begins")
    # Nothing goes before an opening token.
    is_before = start is not None and end.rank < start.rank
    began = start.rank if start else "?"
    shown.claim(
        is_before,
        f"The get of seat {first.seat} took {put_name(own)}, which began at event {began}, after"
        f" {name} {'stood there' if isinstance(end, Opening) else 'had ended'}.",
        f"{name} had not been put wholly before {put_name(own)}.",
    )
    took_later(history, aspect, first, end, get, queue, shown)


def empty(history, aspect, first, others, shown):
    if first.reply != "nothing":
        shown.wrong.append(f"Event {first.rank} is not a get that found nothing.")
        return
    end, get = waiting_put(history, others, None)
    if end is None:
        shown.wrong.append("The verdict names no put that waited.")
        return
    name = put_name(named_by(end))
    shown.mark(end, f"{name} had ended" if not isinstance(end, Opening) else f"{name} stood there")
    shown.claim(
        end.rank < first.rank,
        f"The get of seat {first.seat} found nothing, though {name} had been put.",
        f"{name} had not been put when event {first.rank} found nothing.",
    )
    took_later(history, aspect, first, end, get, queue_of(first.start), shown)


def refused(history, aspect, first, others, shown):
    if not needs_got(first, shown):
        return
    name = put_name(first.named)
    ends = [e for e in others if not isinstance(e, Opening) and e.reply == "spent"]
    ends = [e for e in ends if named_by(e) == first.named]
    for event in ends[:1]:
        shown.mark(event, f"{name} was refused")
    shown.claim(
        bool(ends),
        f"The get of seat {first.seat} took {name}, which the queue had refused.",
        f"No event that the verdict names refused {name}.",
    )


def opening(history, aspect, first, others, shown):
    if not needs_got(first, shown):
        return
    seat, number = first.named
    shown.claim(
        seat is None and number > 0,
        f"The get of seat {first.seat} took opening token {number} while one before it waited.",
        f"Event {first.rank} took no opening token that has one before it.",
    )


def full(history, aspect, first, others, shown):
    for it in others:
        shown.mark(it, "named beside it")
    name = put_name(named_by(first) or (0, 0))
    if first.reply == "done":
        shown.says.append(
            f"The queue took {name} though it held as many values as it has room for: the judge has"
            " counted them, the picture doesn't."
        )
        return
    shown.claim(
        first.reply == "spent" and is_put(first.start),
        f"The queue refused {name} though a place was free: the judge has counted them, the picture"
        " doesn't.",
        f"Event {first.rank} is no put that was refused.",
    )
