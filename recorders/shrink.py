"""The smallest part of a recording that `scq judge` finds to fail alike.

    python3 recorders/shrink.py [--room N] [--line NAME] [--out PART] FILE..

FILE.. are the files of a recording that fails, in the order in which `scq judge` takes them. Of the line NAME of its
verdict (else the first that fails), the event that breaks it is kept, and of the other calls as many are left out as
can be, so that the same line still fails first at this event. A value is left out whole, with its put and all its gets,
since without its get a right history may look wrong; a get that never ended, which may have taken any value, stays where
its queue has one that nobody got. What is left is written to PART (shrunk.log) as a recording of one file without stamps:
seats keep their numbers, their puts and the opening tokens are numbered anew. For a refusal no value has to stay, so PART
may have this put alone.

It prints the line of the verdict on PART. SCQ names the program, or its folder; else it is that of the repository, or of
the path. The status is 0, 1 where no line fails, and 2 where there is no part, with a line that says why.
"""

import argparse
import os
import re
import shutil
import subprocess
import sys

TOP = os.path.dirname(os.path.dirname(os.path.abspath(__file__)))
FAILS = re.compile(r"(?P<name>[a-z ]+?) fails at (?P<file>\S+) line (?P<line>\d+) \(")


class Refusal(Exception):
    """Why there is no part, in a line."""


class Call:
    """A call: its events as (moment, words), and the put that it is of or has got, if any."""

    def __init__(self, start):
        self.start, self.end, self.name, self.queue = start, None, None, start[1][3]


def program():
    named = os.environ.get("SCQ")
    if named:
        return os.path.join(named, "scq") if os.path.isdir(named) else named
    launcher = os.path.join(TOP, "scq")
    found = launcher if os.path.isfile(launcher) else shutil.which("scq")
    if not found:
        raise Refusal("there is no program scq: SCQ may name it")
    return found


def judged(room, names):
    """What the judge says of these files."""
    run = subprocess.run(
        [program(), "judge", *room, "--", *names], stdin=subprocess.DEVNULL, capture_output=True, check=False
    )
    if run.returncode:
        raise Refusal(f"scq judge: {run.stderr.decode('utf-8', 'replace').strip()[-400:]}")
    return run.stdout.decode("utf-8", "replace")


def spelled(name):
    """A file's name as the judge writes it."""
    return "".join(chr(b) if 33 <= b <= 126 else f"\\x{b:02x}" for b in os.fsencode(name))


def read(names):
    """The opening contents, and the events in the order of their stamps, each with its place."""
    opening, events = [], []
    for name in names:
        with open(name, encoding="ascii") as file:
            for number, line in enumerate(file, 1):
                words = line.split()
                if words[0] == "opening":
                    opening.append(words[1])
                elif words[0] in ("start", "end"):
                    events.append((len(events), words, (spelled(name), number)))
                elif words[0] != "run":
                    events.append((int(words[0]), words[1:], (spelled(name), number)))
    events.sort(key=lambda event: event[0])
    return opening, [(words, place) for _, words, place in events]


def calls_of(events):
    """The calls, and of each place the call whose event stands there."""
    calls, under_way, puts, at = [], {}, {}, {}
    for moment, (words, place) in enumerate(events):
        seat = words[1]
        if words[0] == "start":
            call = under_way[seat] = Call((moment, words))
            calls.append(call)
            if words[2] == "put":
                puts[seat] = puts.get(seat, 0) + 1
                call.name = (seat, puts[seat])
        else:
            call = under_way.pop(seat)
            call.end = (moment, words)
            if words[2] == "got":
                call.name = (words[3], int(words[4]))
        at[place] = call
    return calls, at


def units_of(opening, calls):
    """What may be left out, each a list of opening tokens and calls that stay or go together."""
    values, units, never = {}, [], {}
    for number in range(len(opening)):
        values[("o", number)] = [number]
    for call in calls:
        if call.name:
            values.setdefault(call.name, []).append(call)
        elif call.end:
            units.append([call])
        else:
            never.setdefault(call.queue, []).append(call)
    ungot = set()
    for name, parts in values.items():
        gets = [part for part in parts if isinstance(part, Call) and part.end and part.end[1][2] == "got"]
        if not gets:
            queue = "0" if name[0] == "o" else parts[0].queue
            refused = name[0] != "o" and parts[0].end and parts[0].end[1][2] == "spent"
            if not refused:
                ungot.add(queue)
    units += list(values.values())
    kept = []
    for queue, gets in never.items():
        if queue in ungot:
            kept.append(gets)
        else:
            units += [[get] for get in gets]
    return units, kept


def written(opening, units):
    """The lines of these units, and for each event's moment its line."""
    tokens = sorted(part for unit in units for part in unit if not isinstance(part, Call))
    calls = [part for unit in units for part in unit if isinstance(part, Call)]
    named = {("o", number): ("o", k) for k, number in enumerate(tokens)}
    puts = {}
    for call in sorted(calls, key=lambda call: call.start[0]):
        if call.start[1][2] == "put":
            seat = call.start[1][1]
            puts[seat] = puts.get(seat, 0) + 1
            named[call.name] = (seat, puts[seat])
    events = sorted(event for call in calls for event in (call.start, call.end) if event)
    lines, at = [f"opening {opening[number]}" for number in tokens], {}
    for moment, words in events:
        if words[0] == "end" and words[2] == "got":
            seat, number = words[3], int(words[4])
            # a put that isn't there keeps a name that no put has
            other = number if number == 0 or number > puts.get(seat, 0) else number + puts[seat]
            seat, number = named.get((seat, number), (seat, other))
            words = words[:3] + [seat, str(number)] + words[5:]
        lines.append(" ".join(words))
        at[moment] = len(lines)
    return "".join(line + "\n" for line in lines), at


def shrink(room, wanted, names, out):
    found = [it for it in map(FAILS.match, judged(room, names).splitlines()) if it]
    found = next((it for it in found if wanted in (None, it.group("name"))), None)
    if not found:
        return None
    aspect = found.group("name")
    opening, events = read(names)
    calls, at = calls_of(events)
    broken = at[(found.group("file"), int(found.group("line")))]
    units, kept = units_of(opening, calls)
    kept += [unit for unit in units if broken in unit]
    units = [unit for unit in units if broken not in unit]
    moment = next(event[0] for event in (broken.end, broken.start) if event)

    def fails(parts):
        text, lines = written(opening, kept + parts)
        with open(out, "w", encoding="ascii") as file:
            file.write(text)
        wanted = f"{aspect} fails at {spelled(out)} line {lines[moment]} ("
        return next((it for it in judged(room, [out]).splitlines() if it.startswith(wanted)), None)

    if not fails(units):
        raise Refusal("the recording doesn't fail alike once it is written in one file")
    share = 2
    while units:
        size = -(-len(units) // share)
        for front in range(0, len(units), size):
            rest = units[:front] + units[front + size :]
            if fails(rest):
                units, share = rest, max(share - 1, 2)
                break
        else:
            if size == 1:
                break
            share = min(2 * share, len(units))
    return fails(units)


def main():
    usage = argparse.ArgumentParser(
        prog="shrink.py", description=__doc__, formatter_class=argparse.RawDescriptionHelpFormatter
    )
    usage.add_argument("--room", type=int, help=argparse.SUPPRESS)
    usage.add_argument("--line", help=argparse.SUPPRESS)
    usage.add_argument("--out", default="shrunk.log", help=argparse.SUPPRESS)
    usage.add_argument("files", nargs="+", help=argparse.SUPPRESS)
    words = usage.parse_args()
    try:
        room = [] if words.room is None else ["--room", str(words.room)]
        line = shrink(room, words.line, words.files, words.out)
    except (Refusal, OSError, ValueError, LookupError) as why:
        print(f"shrink.py: {why}", file=sys.stderr)
        return 2
    print(line or "no line fails")
    return 0 if line else 1


if __name__ == "__main__":
    sys.exit(main())
