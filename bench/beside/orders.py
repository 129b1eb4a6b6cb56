"""Whether recorders/check_order.py tells orders from others, and takes those that `scq judge --order` writes of the same histories, without
room: `orders.py CHECK_ORDER SCQ CASES..`, of the cases that orders.cpp writes."""

import importlib.util
import subprocess
import sys


def cases_of(lines):
    """Each case: its room, whether its order is right, the history's lines, and the order's."""
    case = None
    for line in lines:
        words = line.split()
        if words[0] == "case":
            if case:
                yield case
            case = (int(words[1]) or None, words[2] == "right", [], [])
            rest = case[2]
        elif words[0] == "order":
            rest = case[3]
        else:
            rest.append(line)
    if case:
        yield case


def written(scq, history):
    """The order of a history that the judge writes, in lines; or why it writes none."""
    with open("history", "w", encoding="ascii") as file:
        file.writelines(history)
    ran = subprocess.run([scq, "judge", "--order", "history"], capture_output=True, encoding="ascii", check=False)
    return ran.stdout.splitlines() if ran.returncode == 0 else ran.stderr.splitlines()[0]


TAKEN, REFUSED, OPEN = "of the judge, taken", "of the judge, refused", "of the judge, none as calls never ended"


def judged(check, scq, opening, events, history):
    """What becomes of the judge's order of a history that has one, and the fault."""
    order, calls = written(scq, history), check.calls_of(events)
    if order == "calls never ended" and any(call.end is None for of in calls.values() for call in of):
        return OPEN, None
    fault = order if isinstance(order, str) else check.fault_of(opening, calls, order)
    return (REFUSED if fault else TAKEN), fault


def main(program, scq, *names):
    sys.dont_write_bytecode = True
    spec = importlib.util.spec_from_file_location("check_order", program)
    check = importlib.util.module_from_spec(spec)
    spec.loader.exec_module(check)
    counts = {}
    for name in names:
        with open(name, encoding="ascii") as file:
            for room, is_right, history, order in cases_of(file):
                opening, events = check.events_of([history])
                fault = check.fault_of(opening, check.calls_of(events), order, room)
                kind = ("right" if is_right else "wrong") + (", refused" if fault else ", taken")
                counts[kind] = counts.get(kind, 0) + 1
                if (fault is None) != is_right and counts[kind] == 1:
                    print(f"{kind}: {fault}", *history, *order, sep="\n  ")
                if is_right and room is None:
                    kind, fault = judged(check, scq, opening, events, history)
                    counts[kind] = counts.get(kind, 0) + 1
                    if kind == REFUSED and counts[kind] == 1:
                        print(f"{kind}: {fault}", *history, sep="\n  ")
    for kind, count in sorted(counts.items()):
        print(f"{kind}: {count}")
    missed = [counts.get(kind) for kind in ("right, refused", "wrong, taken", REFUSED)]
    return int(any(missed) or not counts.get("wrong, refused") or not counts.get(TAKEN))


if __name__ == "__main__":
    sys.exit(main(*sys.argv[1:]))
