"""The page of a recording: windows of its history, each with its lanes, bars and marks, as data."""
import os

from check import Opening, check, named_by, put_name
from history import content_of, is_put, queue_of
from page import filled, page, plain
from verdict import ENDINGS, RULES, spelled
from window import Window

LANES = 32  # with more seats, only those have lanes that have a call in the window

LEGEND = (
    ("put done", "put: Done"),
    ("get got", "get: Got"),
    ("get nothing", "get: Nothing"),
    ("put spent", "refused (Spent)"),
    ("put never open", "no end is shown"),
)


def short_names(names):
    """The names of the files without their folders, where these tell them apart."""
    short = [spelled(os.path.basename(name)) for name in names]
    return short if len(set(short)) == len(short) else [spelled(name) for name in names]


def place_text(names, event):
    return f"{names[event.file]} line {event.line}"


def event_text(names, event):
    return f"event {event.rank}, stamp {event.stamp}, {place_text(names, event)}"


def shown_content(digits):
    """A content in words: its digits, and its characters where all are ASCII."""
    if digits in (None, "-"):
        return ""
    try:
        text = bytes.fromhex(digits).decode("ascii")
    except ValueError:
        text = ""
    return f", content {digits}" + (f" ({text})" if text.isprintable() and text else "")


class Drawing:
    """The data of one window."""

    def __init__(self, history, window, shown, where):
        self.history, self.window, self.where = history, window, where
        self.names = short_names(history.names)
        events = [event for event, _ in shown.events] if shown else []
        self.openings = sorted({e.number for e in events if isinstance(e, Opening)})
        self.seats = sorted({call.start.seat for call in window.calls})
        if len(history.seats) <= LANES:
            self.seats = sorted(history.seats)
        self.lane = {seat: i + bool(self.openings) for i, seat in enumerate(self.seats)}
        self.by_start = {call.start.rank: i for i, call in enumerate(window.calls)}
        self.shown = shown

    def lanes(self):
        files = {}
        for call in self.window.calls:
            names = files.setdefault(call.start.seat, [])
            name = self.names[call.start.file]
            if name not in names:
                names.append(name)
        head = [{"name": "opening", "detail": "before all"}] if self.openings else []
        return head + [
            {"name": f"seat {s}", "detail": ", ".join(files.get(s, ["no call here"]))}
            for s in self.seats
        ]

    def call(self, call):
        names, window, start, end = self.names, self.window, call.start, call.end
        kind = "put" if is_put(start) else "get"
        named = (start.seat, start.number) if kind == "put" else end.named if end else None
        reply = end.reply if end else "never" if call.is_never else "later"
        what = f"{kind} {start.number}" if kind == "put" else "get"
        queue = queue_of(start)
        title = f"{what} of seat {start.seat}, queue {queue}"
        detail = f"Seat {start.seat}: {what} {'into' if kind == 'put' else 'from'} queue {queue}"
        detail += shown_content(content_of(start))
        detail += f". Starts at {event_text(names, start)}"
        if not window.is_shown(start.rank):
            detail += ", which isn't in this window"
        if end:
            reply_text = reply.capitalize()
            if reply == "got":
                reply_text = f"Got: {put_name(named)}{shown_content(content_of(end))}"
            detail += f". Ends with {reply_text} at {event_text(names, end)}."
        else:
            detail += ". It never ends." if call.is_never else ". Its end isn't in this window."
        short = {"got": "", "nothing": "∅", "spent": "×"}.get(reply, "")
        if kind == "put":
            short = f"{start.number}{' ×' if reply == 'spent' else ''}"
        elif reply == "got":
            short = f"{'o' if named[0] is None else named[0]}·{named[1]}"
        return {
            "lane": self.lane[start.seat],
            "from": window.column(start.rank),
            "to": window.column(end.rank) if end else window.last_seen(call),
            "since": not window.is_shown(start.rank),
            "open": end is None,
            "kind": kind,
            "reply": reply,
            "short": short or "…",
            "label": f"{kind} {short}" if short else f"{kind} …",
            "title": title,
            "detail": detail,
            "name": f"{named[0]}:{named[1]}" if named else None,
        }

    def opening(self, number):
        content = self.history.openings[number].decode()
        return {
            "lane": 0,
            "from": -1.4,
            "to": -0.6,
            "since": False,
            "open": False,
            "kind": "put",
            "reply": "done",
            "short": f"o·{number}",
            "label": f"o·{number}",
            "title": f"opening token {number}",
            "detail": f"Opening token {number} stood in queue 0 before the first event"
            f"{shown_content(content)}.",
            "name": f"None:{number}",
        }

    def mark(self, event, words):
        names = self.names
        if isinstance(event, Opening):
            at, lane, call = -1, 0, len(self.window.calls) + self.openings.index(event.number)
            text = f"opening token {event.number}, {place_text(names, event)}"
        else:
            start = event if event.is_start else event.start
            at, lane = self.window.column(event.rank), self.lane[event.seat]
            call = self.by_start.get(start.rank)
            side = "the start" if event.is_start else f"the end ({event.reply})"
            own = named_by(event) if is_put(start) else None
            what = put_name(own) if own else f"a get of seat {event.seat}"
            text = f"{side} of {what}: {event_text(names, event)}"
        return {
            "column": at,
            "lane": lane,
            "call": call,
            "rank": event.rank,
            "place": f"{event.file}:{event.line}",
            "words": f"{words[0].upper()}{words[1:]}: {text}",
        }

    def data(self):
        window = self.window
        ends = [
            (at + last - first + 1, last)
            for (first, last), at in zip(window.stretches, window.starts)
        ]
        gaps = [
            {"from": left, "to": right, "count": f"{first - last - 1:,} events"}
            for (left, last), right, (first, _) in zip(
                ends, window.starts[1:], window.stretches[1:]
            )
        ]
        return {
            "where": self.where,
            "columns": window.columns,
            "centre": window.columns / 2,
            "stretches": [
                {"at": at, "first": first, "last": last}
                for (first, last), at in zip(window.stretches, window.starts)
            ],
            "gaps": gaps,
            "lanes": self.lanes(),
            "calls": [self.call(c) for c in window.calls]
            + [self.opening(n) for n in self.openings],
            "marks": [self.mark(e, w) for e, w in self.shown.events] if self.shown else [],
        }


def many(number, word):
    return f"{number:,} {word}{'' if number == 1 else 's'}"


def where_text(history, window):
    if not window.stretches:
        return "There are no events."
    rows = " and ".join(f"{first:,} to {last:,}" for first, last in window.stretches)
    around = f"{window.before:,} lie before, {window.behind:,} behind."
    return f"Events {rows} of {history.events:,}: {around}"


def windows_of(history, aspects, width, at):
    """Each aspect that fails with what is found of it and its window; where none fails, and where
    `at` asks for it, the window around one event."""
    shown = []
    for aspect in aspects:
        if aspect.holds:
            continue
        found = check(history, aspect)
        ranks = [e.rank for e, _ in found.events if e.rank] or [1]
        window = Window(history, ranks, width)
        shown.append((aspect, found, window))
    if at or not shown:
        shown.append((None, None, Window(history, [at or history.densest_at], width)))
    return shown


def row_of(aspect, found, show):
    """One aspect of the verdict's table: markup."""
    name, rule = plain(aspect.name), plain(RULES.get(aspect.rule, ""))
    told = f"<br><code>{plain(aspect.text)}</code>"
    if aspect.holds:
        word = "✓ holds" if aspect.tested else "– not tested"
        told = "" if aspect.text == f"{aspect.name} {word[2:]}" else told
        return f"<tr><td><b>{name}</b></td><td>{word}</td><td>{rule}{told}</td></tr>"
    says = " ".join(plain(it) for it in found.says)
    wrong = "".join(f'<p class="wrong">Not so: {plain(it)}</p>' for it in found.wrong)
    button = f'<button type="button" data-show="{show}" aria-pressed="false">✗ fails</button>'
    cells = f"<td><b>{name}</b></td><td>{button}</td><td>{rule}<br>{says}{wrong}{told}</td>"
    return f'<tr class="fails">{cells}</tr>'


def rows_of(aspects, shown):
    """The table of the verdict: markup."""
    there = {id(aspect): (found, show) for show, (aspect, found, _) in enumerate(shown)}
    return "".join(row_of(aspect, *there.get(id(aspect), (None, None))) for aspect in aspects)


def legend():
    bits = []
    for kind, words in LEGEND:
        at = 'x="2" y="2" width="34" height="14"'
        box = f'<rect class="box" {at} rx="{7 if kind.startswith("get") else 2}"/>'
        over = f'<rect class="over" {at}/>' if "spent" in kind else ""
        shape = f'<g class="bar {kind}">{box}{over}</g>'
        bits.append(
            f'<span><svg width="38" height="18" aria-hidden="true">{shape}</svg> {words}</span>'
        )
    return "".join(bits)


def recording_page(history, aspects, counts, at=None, width=400):
    """The page, and what in it isn't as the verdict says."""
    shown = windows_of(history, aspects, width, at)
    wrong = [it for _, found, _ in shown if found for it in found.wrong]
    here = {"events": history.events, "seats": len(history.seats), "calls": history.calls}
    for name, number in here.items():
        if counts.get(name, number) != number:
            wrong.append(f"The verdict is of {counts[name]} {name}, the files have {number}.")
    windows = [Drawing(history, w, found, where_text(history, w)).data() for _, found, w in shown]
    fails = [aspect.name for aspect, _, _ in shown if aspect]
    names = ", ".join(spelled(name) for name in history.names[:8])
    names += f" and {len(history.names) - 8} more" if len(history.names) > 8 else ""
    head = ", ".join(
        many(number, word)
        for number, word in (
            (history.events, "event"),
            (history.calls, "call"),
            (len(history.seats), "seat"),
            (history.queues, "queue"),
            (counts.get("overlapping", 0), "overlapping call"),
        )
    )
    head += "".join(f", {counts[word]:,} {word}" for word in ENDINGS if word in counts)
    title = "all aspects hold"
    untested = [aspect.name for aspect in aspects if not aspect.tested]
    if untested:
        title = f"no aspect fails, not tested: {', '.join(untested)}"
    if fails:
        title = ", ".join(fails[:-1]) + (" and " if fails[1:] else "") + fails[-1]
        title += " fail" if fails[1:] else " fails"
    banner = "".join(
        f'<p class="wrong" data-wrong>Not as the verdict says: {plain(w)}</p>' for w in wrong
    )
    around = ""
    if shown[-1][0] is None:
        words = "The window that was asked for"
        if not at:
            words = f"Where first the most calls are under way at once: {history.densest}"
        around = (
            f'<p><button type="button" data-show="{len(shown) - 1}" aria-pressed="false">'
            f"{words}</button></p>"
        )
    body = filled(
        "history.html",
        title=plain(title),
        head=plain(head),
        names=plain(names),
        banner=banner,
        rows=rows_of(aspects, shown),
        around=around,
        legend=legend(),
    )
    return page(f"scq judge: {title}", body, {"windows": windows}, "history.js"), wrong
