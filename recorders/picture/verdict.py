"""What `scq judge` says, read from its report: the one place that knows how its lines look.

A place is `file F line N`, with the file's number, or with its name where the judge names files
(bytes below 33 or above 126 as \\xHH); what else stands in a line is told as it is.
"""
import os
import re

COUNTS = ("events", "queues", "seats", "calls", "overlapping")
ENDINGS = ("got", "nothing", "refused", "spent", "never ended")
PLACE = re.compile(r"(?:(?<=\s)|^)(file )?(\S+) line (\d{1,19})\b")
VERDICT = re.compile(r"(?P<name>[a-z][a-z ]*?) (?P<word>holds|not tested|fails)\b(?P<rest>.*)")

# What each aspect asks of a history, in a sentence.
RULES = {
    "fresh": "What a get takes was put before: its put is in the recording, into the same queue"
    " with the same content, and began before the get had ended.",
    "once": "No two gets take the same put.",
    "in order": "A value that was put wholly before another is not taken later than it: no get"
    " takes a value while one that had been put before its put began still waits, with nobody"
    " under way to take it.",
    "empty": "A get finds nothing only where at some moment of its call each value that had been"
    " put was taken, or somebody was under way to take it.",
    "refused": "A value whose put was refused is never taken.",
    "full": "A put is refused only where at some moment of its call no place was free that nobody"
    " had begun to take, and a queue never holds more than it has room for.",
    "opening in order": "The values that stood in the queue at the start are taken in their order.",
}


# Aspects that are told by more than one name.
NAMES = {"refused never got": "refused"}


class Refusal(Exception):
    """Why there is no picture, in a line."""


class Aspect:
    """One line of a verdict, and `rule`, by which name it stands in RULES. `places` are (file,
    line), the file's number from 0; the first is that of the event that breaks the aspect."""

    def __init__(self, name, word, text, places):
        self.name, self.text, self.places = name, text, places
        self.holds, self.tested = word != "fails", word != "not tested"
        self.rule = NAMES.get(name, name)
        waiting = re.search(r"\b(\d{1,19}) waiting\b", text)
        self.waiting = int(waiting.group(1)) if waiting else None
        self.never = bool(re.search(r", never got(;|$)", text))


def spelled(name):
    """A file's name as the judge writes it."""
    return "".join(chr(b) if 33 <= b <= 126 else f"\\x{b:02x}" for b in os.fsencode(name))


def file_of(word, is_numbered, names):
    """The file that a place names, from 0, or None."""
    if is_numbered:
        number = int(word) - 1
        return number if 0 <= number < len(names) else None
    for wanted in ([spelled(n) for n in names], [spelled(os.path.basename(n)) for n in names]):
        if wanted.count(word) == 1:
            return wanted.index(word)
    return None


def read_verdict(text, names):
    """The aspects and the counts of a report on files of these names."""
    aspects, counts = [], {}
    found = [PLACE.findall(line) for line in text.splitlines()]
    # Where each place says `file` and a number it is the number that the file has.
    is_numbered = all(prefix and word.isdigit() for row in found for prefix, word, _ in row)
    for line, row in zip(text.splitlines(), found):
        count = re.fullmatch(r"([a-z ]+) (\d{1,19})", line)
        verdict = VERDICT.fullmatch(line)
        if count and count.group(1) in COUNTS + ENDINGS:
            counts[count.group(1)] = int(count.group(2))
        elif verdict:
            said = verdict.group("word")
            places = []
            for _, word, at in row:
                file = file_of(word, is_numbered, names)
                if file is None:
                    raise Refusal(f"the verdict names a file that isn't here: {line[:200]}")
                places.append((file, int(at)))
            if said == "fails" and not places:
                raise Refusal(f"the verdict fails nowhere: {line[:200]}")
            at = places if said == "fails" else []
            aspects.append(Aspect(verdict.group("name"), said, line, at))
    if not aspects or "events" not in counts:
        raise Refusal("this is no report of scq judge")
    return aspects, counts
