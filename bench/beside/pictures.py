"""What bench/pictures asks of pages in headless Chromium. Files, verdicts and printed steps are read
here anew, by nothing of recorders/picture. Each line of standard input is a task, with tabs between
its words:

    recording PAGE SHOT VERDICT FILE..    windows, lanes, bars, marks, joins, zoom, drag and keys
    schedule PAGE SHOT SCHEDULE PRINTED   slots, pointers, seats, and a step forward and back
    quiet PAGE SHOT                       nothing runs in it but its own script
    svg PAGE OUT                          the page's drawing as a file of its own

A line is written for each, and the status is 1 where anything was wrong."""
import os
import re
import sys

sys.dont_write_bytecode = True

from browse import Browser  # noqa: E402

EDGE = """(() => {
  const marks = [...document.querySelectorAll(".mark")];
  return marks.map((mark) => {
    const x = mark.querySelector("line").getBoundingClientRect().x;
    const edges = [...document.querySelectorAll(".bar .box")].flatMap((box) => {
      const { left, right } = box.getBoundingClientRect();
      const bar = box.parentNode;
      return [[left, Number(bar.dataset.from)], [right, Number(bar.dataset.to)]];
    });
    const column = Number(mark.dataset.column);
    const own = edges.filter(([, at]) => at === column || (column === -1 && at < 0));
    return own.some(([px]) => Math.abs(px - x) < 3 || column === -1);
  });
})()"""


class Wrong(Exception):
    pass


def need(is_so, words):
    if not is_so:
        raise Wrong(words)


def events_of(files):
    """All events, (stamp, file, line, words), in order; and how many opening tokens there are."""
    events, openings, has_stamps = [], 0, True
    for number, name in enumerate(files):
        with open(name, "rb") as file:
            for at, line in enumerate(file.read().decode().split("\n"), 1):
                words = line.split(" ")
                if words[0] == "opening":
                    openings += 1
                elif words[0] in ("start", "end"):
                    events.append((at, number, at, words))
                elif line:
                    events.append((int(words[0]), number, at, words[1:]))
    return sorted(events), openings


def calls_of(events):
    """By call the ranks of its start and its end, or of a late one."""
    calls, under_way = [], {}
    for rank, (_, _, _, words) in enumerate(events, 1):
        if words[0] == "start":
            under_way[words[1]] = rank
        else:
            calls.append((under_way.pop(words[1]), rank))
    return calls + [(rank, len(events) + 1) for rank in under_way.values()]


def places_of(line, files):
    """The places that a line of a verdict names, whether by the files' numbers or their names."""
    found = []
    for word, at in re.findall(r"(?:file )?(\S+) line (\d+)", line):
        names = [os.path.basename(name) for name in files]
        number = int(word) - 1 if word.isdigit() else names.index(os.path.basename(word))
        found.append(f"{number}:{at}")
    return found


def recording(it, page, shot, verdict, *files):
    events, _ = events_of(files)
    calls = calls_of(events)
    seats = {words[1] for _, _, _, words in events}
    with open(verdict, encoding="utf-8") as file:
        failing = [line for line in file if " fails " in line]
    it.scheme("light")
    it.open(page)
    need(not it.faults(), f"faults: {it.faults()[:3]}")
    need(
        not it.value("document.querySelectorAll('[data-wrong]').length"), "not as the verdict says"
    )
    windows = it.value("data.windows.map((w) => w.stretches.map((s) => [s.first, s.last]))")
    need(len(windows) == max(1, len(failing)), f"{len(windows)} windows of {len(failing)} breaches")
    bars = 0
    for index, stretches in enumerate(windows):
        it.value(f"document.querySelector('[data-show=\"{index}\"]').click()")
        inside = [c for c in calls if any(c[0] <= b and c[1] >= a for a, b in stretches)]
        openings = it.value("shown.lanes.filter((l) => l.name === 'opening').length")
        tokens = it.value(
            "shown.calls.filter((c) => shown.lanes[c.lane].name === 'opening').length"
        )
        drawn = it.value("document.querySelectorAll('#bars .bar').length")
        need(drawn - tokens == len(inside), f"{drawn - tokens} bars of {len(inside)} calls")
        lanes = it.value("document.querySelectorAll('#lanes .lane').length")
        stripes = it.value("document.querySelectorAll('rect.stripe').length")
        need(lanes == stripes == openings + len(seats), f"{lanes} lanes of {len(seats)} seats")
        before = it.value("byId('where').textContent")
        need(f"{stretches[0][0] - 1:,} lie before" in before if events else True, before)
        bars += drawn
        if not failing:
            continue
        places = places_of(failing[index], files)
        breach = it.value(
            "[...document.querySelectorAll('.mark.breach')].map((m) => m.dataset.place)"
        )
        need(breach == places[:1], f"marks {breach} and not {places[:1]}")
        others = it.value(
            "[...document.querySelectorAll('.mark.other')].map((m) => m.dataset.place)"
        )
        need(set(places[1:]) <= set(others), f"marks {others} of {places[1:]}")
        need(all(it.value(EDGE)), "a mark isn't at its event")
        rank = it.value("document.querySelector('.mark.breach').dataset.rank")
        file, line = map(int, places[0].split(":"))
        need(events[int(rank) - 1][1:3] == (file, line), f"event {rank} isn't at {places[0]}")
    it.value("document.querySelector('[data-show=\"0\"]').click()")
    it.picture(shot)
    joins = acts(it)
    it.scheme("dark")
    it.picture(shot.replace(".png", ".dark.png"))
    return f"{len(windows)} windows, {bars} bars, {len(seats)} lanes, {joins}"


def acts(it):
    """Pointing, zoom, drag and keys."""
    if not it.value("bars.length"):
        return "no calls"
    told = "no pair is shown"
    pair = it.value(
        "bars.findIndex((b) => b.call.kind === 'get' && (joined.get(b.call.name) || 0).length > 1)"
    )
    if pair >= 0:
        it.value(f"centre(bars[{pair}].call.from); byId('view').scrollIntoView()")
        box = it.value(
            f"(({{ x, y, width, height }}) => [x + Math.min(4, width / 2), y + height / 2])"
            f"(bars[{pair}].box.getBoundingClientRect())"
        )
        it.mouse("mouseMoved", *box)
        need(it.value("document.querySelectorAll('#joins .join').length") >= 1, "nothing is joined")
        need(
            it.value("document.querySelectorAll('.bar.partner').length") >= 1, "no partner is shown"
        )
        need("Joined with" in it.value("byId('told').textContent"), "the pair isn't told")
        it.mouse("mouseMoved", 2, 2)
        need(it.value("document.querySelectorAll('#joins .join').length") == 0, "the join stays")
        told = "a pair joined"
    wide = "Number(svg.getAttribute('width'))"
    before = it.value(wide)
    it.key("+")
    need(it.value(wide) > before or it.value("scale") >= 59, "+ doesn't zoom")
    it.key("-")
    it.key("-")
    need(it.value(wide) < it.value("width()") + 1, "the drawing isn't of its width")
    it.value("scale = 60; lay(); view.scrollLeft = 0; byId('view').scrollIntoView()")
    x, y = it.value("(({ x, y }) => [x + 300, y + 20])(view.getBoundingClientRect())")
    room = it.value("view.scrollWidth - view.clientWidth")
    it.mouse("mousePressed", x, y, button="left", clickCount=1)
    it.mouse("mouseMoved", x - 100, y, button="left", buttons=1)
    it.mouse("mouseReleased", x - 100, y, button="left", clickCount=1)
    need(it.value("view.scrollLeft") >= min(90, room - 1), "a drag doesn't move it")
    if it.value("shown.marks.length"):
        it.key("n")
        need(it.value("pinned === shown.marks[at].call"), "n doesn't go to a mark")
    it.key("Escape")
    need(it.value("pinned === null"), "Esc doesn't let go")
    it.key(".")
    need(it.value("pinned === 0"), "the point doesn't go to a call")
    it.value("byId('table').open = true; byId('table').ontoggle()")
    need(
        it.value("byId('calls').children.length") == it.value("bars.length"),
        "the table lacks calls",
    )
    it.value("byId('table').open = false")
    it.key("0")
    return told


def schedule(it, page, shot, schedule_file, printed_file):
    with open(schedule_file, encoding="utf-8") as file:
        order = int(file.readline().split(" ")[1])
    slots = 2 << order
    with open(printed_file, encoding="utf-8") as file:
        printed = [line.split(" ") for line in file.read().splitlines()]
    it.scheme("light")
    it.open(page)
    need(not it.faults(), f"faults: {it.faults()[:3]}")
    need(it.value("document.body.dataset.step") == "0", "it doesn't begin at the start")
    start = it.value("byId('rings').innerHTML")
    middle = len(printed) // 2
    for n, words in enumerate(printed, 1):
        it.key("ArrowRight")
        need(it.value("document.body.dataset.step") == str(n), f"step {n} isn't shown")
        ring, head, tail, threshold = (words[i] for i in (4, 6, 8, 10))
        cells = it.value(
            f"[...document.querySelectorAll('[data-ring=\"{ring}\"] .cell')]"
            ".sort((a, b) => a.dataset.slot - b.dataset.slot)"
            ".map((c) => [c.dataset.cycle, c.dataset.safe, c.dataset.index])"
        )
        need(len(cells) == slots, f"{len(cells)} slots of {slots}")
        for cell, word in zip(cells, words[12 : 12 + slots]):
            word = int(word)
            index = word % slots
            want = [
                str(word // (2 * slots)),
                str(word // slots % 2),
                "" if index == slots - 1 else str(index),
            ]
            need(cell == want, f"step {n}: a slot shows {cell} and not {want}")
        label = it.value(
            f"document.querySelector('[data-ring=\"{ring}\"] svg').getAttribute('aria-label')"
        )
        need(label == f"Ring {ring}: Head {head}, Tail {tail}, Threshold {threshold}", label)
        inner = it.value(
            f"[...document.querySelectorAll('[data-ring=\"{ring}\"] .inner')]"
            ".map((t) => t.textContent)"
        )
        need(inner[1:] == [f"Head {head}", f"Tail {tail}", f"Threshold {threshold}"], str(inner))
        if n == middle:
            here = it.value("byId('rings').innerHTML")
            it.key("ArrowRight")
            it.key("ArrowLeft")
            need(
                it.value("byId('rings').innerHTML") == here,
                "a step forward and back isn't the same",
            )
            it.picture(shot)
    it.key("ArrowRight")
    need(it.value("document.body.dataset.step") == str(len(printed)), "it goes past the end")
    it.scheme("dark")
    it.picture(shot.replace(".png", ".dark.png"))
    it.key("Home")
    need(it.value("byId('rings').innerHTML") == start, "the start isn't as it was")
    it.value("byId('on').click()")
    it.value("byId('back').click()")
    need(it.value("byId('rings').innerHTML") == start, "the buttons don't go forward and back")
    return f"{len(printed)} steps, {slots} slots"


def quiet(it, page, shot):
    it.open(page)
    need(not it.faults(), f"faults: {it.faults()[:3]}")
    need(it.value("typeof window.ran") == "undefined", "something ran")
    count = it.value(
        "document.querySelectorAll('script, img, iframe, object, embed, link, form, base').length"
    )
    need(count == 2, f"{count} elements that could do something, and not 2 scripts")
    it.picture(shot)
    return "nothing ran"


def as_svg(it, page, out):
    it.scheme("light")
    it.open(page)
    it.value("scale = 34; lay(); pin(shown.marks[0].call)")
    with open(os.path.join(os.path.dirname(os.path.abspath(__file__)), "drawing.js")) as file:
        text = it.value(file.read())
    with open(out, "w", encoding="utf-8") as file:
        file.write(re.sub(r"(</(?:g|rect|text|title|style|defs)>|/>)(?=<)", r"\1\n", text) + "\n")
    return f"{len(text)} bytes"


TASKS = {"recording": recording, "schedule": schedule, "quiet": quiet, "svg": as_svg}


def main():
    bad = 0
    it = Browser(sys.argv[1] if len(sys.argv) > 1 else "chromium")
    for line in sys.stdin:
        task, *words = line.rstrip("\n").split("\t")
        try:
            print(f"{task} {words[0].rsplit('/', 1)[-1]}: {TASKS[task](it, *words)}", flush=True)
        except Wrong as why:
            bad += 1
            print(f"missed: {task} {words[0].rsplit('/', 1)[-1]}: {why}", flush=True)
    it.close()
    return 1 if bad else 0


sys.exit(main())
