"""Pictures of what scq says: one HTML file that needs nothing else.

    python3 recorders/picture [--verdict SAID | --room N] [--at EVENT] [--width N] [--out PAGE] FILE..
        the files of a recording, with what `scq judge` says of them (--room is for the judge), or
        SAID: around the first breach of each aspect the N events (400); where all hold, or at
        EVENT, around one event
    python3 recorders/picture --schedule [--printed FILE] [--out PAGE] FILE
        what `scq replay` prints, or printed, of the steps of this file

PAGE is picture.html where nothing is said. SCQ names the program, or its folder; else it is that of
the repository, or of the path. The status is 0, 1 where the marked events don't show what the
verdict says (the page says so too), and 2 where there is no picture, with a line that says why.
"""
import argparse
import os
import shutil
import subprocess
import sys

sys.dont_write_bytecode = True

from recording import recording_page  # noqa: E402
from history import History  # noqa: E402
from replayed import replayed_page  # noqa: E402
from verdict import Refusal, read_verdict, spelled  # noqa: E402

TOP = os.path.dirname(os.path.dirname(os.path.dirname(os.path.abspath(__file__))))


def program():
    named = os.environ.get("SCQ")
    if named:
        return os.path.join(named, "scq") if os.path.isdir(named) else named
    launcher = os.path.join(TOP, "scq")
    found = launcher if os.path.isfile(launcher) else shutil.which("scq")
    if not found:
        raise Refusal("there is no program scq: SCQ may name it")
    return found


def asked(words, names):
    """What the program prints, asked so of these files."""
    try:
        run = subprocess.run(
            [program(), *words, "--", *names],
            stdin=subprocess.DEVNULL,
            capture_output=True,
            check=False,
        )
    except OSError as fault:
        raise Refusal(f"scq can't be run: {fault.strerror}") from None
    if run.returncode:
        said = run.stderr.decode("utf-8", "replace").strip() or f"status {run.returncode}"
        raise Refusal(f"scq {words[0]}: {said[-400:]}")
    return run.stdout.decode("utf-8", "replace")


def text_of(name):
    try:
        with open(name, encoding="utf-8", errors="replace") as file:
            return file.read()
    except OSError as fault:
        raise Refusal(f"{spelled(name)}: {fault.strerror}") from None


def make(words):
    if words.schedule:
        if len(words.files) != 1:
            raise Refusal("a schedule is one file")
        printed = text_of(words.printed) if words.printed else asked(["replay"], words.files)
        return replayed_page(words.files[0], text_of(words.files[0]), printed), []
    room = [] if words.room is None else ["--room", str(words.room)]
    said = text_of(words.verdict) if words.verdict else asked(["judge", *room], words.files)
    aspects, counts = read_verdict(said, words.files)
    history = History(words.files, [place for it in aspects for place in it.places])
    if words.at is not None and not 1 <= words.at <= history.events:
        raise Refusal(f"there is no event {words.at}")
    return recording_page(history, aspects, counts, words.at, words.width)


def main():
    usage = argparse.ArgumentParser(
        prog="picture", description=__doc__, formatter_class=argparse.RawDescriptionHelpFormatter
    )
    usage.add_argument("--schedule", action="store_true", help=argparse.SUPPRESS)
    usage.add_argument("--verdict", help=argparse.SUPPRESS)
    usage.add_argument("--printed", help=argparse.SUPPRESS)
    usage.add_argument("--room", type=int, help=argparse.SUPPRESS)
    usage.add_argument("--at", type=int, help=argparse.SUPPRESS)
    usage.add_argument("--width", type=int, default=400, help=argparse.SUPPRESS)
    usage.add_argument("--out", default="picture.html", help=argparse.SUPPRESS)
    usage.add_argument("files", nargs="+", help=argparse.SUPPRESS)
    words = usage.parse_args()
    words.width = max(8, min(4000, words.width))
    try:
        made, wrong = make(words)
        with open(words.out, "w", encoding="utf-8") as file:
            file.write(made)
    except Refusal as why:
        print(f"picture: {why}", file=sys.stderr)
        return 2
    except OSError as fault:
        print(f"picture: {spelled(words.out)}: {fault.strerror}", file=sys.stderr)
        return 2
    for it in wrong:
        print(f"picture: not as the verdict says: {it}", file=sys.stderr)
    print(words.out)
    return 1 if wrong else 0


sys.exit(main())
