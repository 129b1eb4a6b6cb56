"""Reads how a program's library for aarch64 accesses memory, off its instructions and a run of them under qemu-aarch64.

    accesses.py PROGRAM FROM TO judge LOG SEEN    judges what `qemu-aarch64 -singlestep -d nochain,exec,cpu -dfilter FROM+SIZE` wrote to LOG, and
                                                  writes to SEEN which atomic instructions would be found OFTEN there, were they plain
    accesses.py PROGRAM FROM TO plant K SEEN      makes the Kth ldar, or stlr, of these a plain load or store of PROGRAM

The library's code stands from FROM to TO, in hexadecimal. A word is shared if an atomic instruction accesses it. From then on each access to it is to be by an instruction that is sequentially consistent: ldar, stlr, a loop of ldaxr and stlxr, or one of those that do it all at once, with acquire
and release, up to the last such access. What comes before the first is the making of the queue, which no other thread sees yet, and what comes behind
the last the end of its last close, when no other thread has it any more.
"""
import re
import subprocess
import sys

LINE = re.compile(r"^ *([0-9a-f]+):\t([0-9a-f]{8}) \t(\S+)(?:\t(.*))?$")
ADDRESS = re.compile(r"\[(\w+)(?:, (?:#(-?\w+)|(\w+)(?:, (\w+)(?: #(\d+))?)?))?\](!|, #(-?\w+))?")
ORDERED = re.compile(r"(ldar|stlr|ldaxr|stlxr|ldaxp|stlxp)[bh]?$|(cas|swp|ldadd|ldclr|ldset|ldeor|ld[su]max|ld[su]min)al[bh]?$")
WEAKER = re.compile(r"(ldxr|stxr|ldxp|stxp|ldapu?r|ldlar|stllr)s?[bhw]?$|(cas|casp|swp|ldadd|ldclr|ldset|ldeor|ld[su]max|ld[su]min)[al]?[bh]?$|"
                    r"st(add|clr|set|eor|[su]max|[su]min)l?[bh]?$")
PLAIN = re.compile(r"(ld|st)(u?r|p|np|\d)s?[bhw]?w?$|ldp?sw$|ldursw$|ldr?sw$")
OFTEN = 100
WIDTHS = {"w": 4, "x": 8, "b": 1, "h": 2, "s": 4, "d": 8, "q": 16, "v": 16}


class Access:
    """An instruction that loads or stores."""

    def __init__(self, at, name, operands):
        self.at, self.name, self.operands = at, name, operands
        self.is_ordered = bool(ORDERED.match(name))
        base = ADDRESS.search(operands)
        if not base:
            raise ValueError(f"{at:x}: {name} {operands}: an access that isn't understood")
        self.base, offset, self.index, self.extend, shift = base.group(1, 2, 3, 4, 5)
        # (What is added behind the access counts for the next one.)
        self.offset = int(offset, 0) if offset else 0
        self.shift = int(shift or 0)
        first = operands.split(",")[1 if name.startswith(("stlx", "stx")) else 0].strip().lstrip("{")
        self.width = {"b": 1, "h": 2}.get(name[-1], WIDTHS[first[0]]) if not name.endswith("sw") else 4
        if re.match(r"(ld|st)n?p|(ldax|stlx|ldx|stx)p", name):
            self.width *= 2
        elif re.match(r"(ld|st)\d", name):
            self.width *= int(name[2])

    def place(self, registers):
        """The first byte that it accesses, where the registers have these values."""
        at = registers[self.base] + self.offset
        if self.index:
            added = registers["x" + self.index[1:]] if self.index != "wzr" and self.index != "xzr" else 0
            if self.index[0] == "w":
                added &= 0xFFFFFFFF
                if self.extend == "sxtw" and added >> 31:
                    added -= 1 << 32
            at += added << self.shift
        return at & (1 << 64) - 1


def instructions(program, start, end):
    """Address, bytes, name and operands of each instruction from `start` to `end`."""
    tool = "aarch64-linux-gnu-objdump"
    said = subprocess.run([tool, "-d", f"--start-address={start}", f"--stop-address={end}", program], capture_output=True, text=True, check=True)
    for line in said.stdout.splitlines():
        found = LINE.match(line)
        if found:
            yield int(found[1], 16), int(found[2], 16), found[3], re.sub(r"\s*(//|<).*", "", found[4] or "")


def read(program, start, end):
    """The loads and stores by their addresses, and what is wrong of the code as it stands."""
    accesses, wrong, code = {}, [], list(instructions(program, start, end))
    for number, (at, _, name, operands) in enumerate(code):
        if WEAKER.match(name):
            wrong.append(f"{at:x}: {name} {operands}: an atomic instruction that isn't of acquire and release")
        if name.startswith("ldax"):
            # The loop: its store, and behind that a branch back.
            ahead = code[number + 1:number + 12]
            stores = [k for k, it in enumerate(ahead) if it[2].startswith("stlx")]
            back = [it for it in ahead[stores[0] + 1:stores[0] + 4] if re.match(r"cbn?z$|b$|b\.", it[2])] if stores else []
            if not any(at - 64 <= int(it[3].split()[-1], 16) <= at for it in back):
                wrong.append(f"{at:x}: {name} {operands}: no loop is seen of it")
        if "[" in operands and not name.startswith("prf"):
            if not (ORDERED.match(name) or WEAKER.match(name) or PLAIN.match(name)):
                raise ValueError(f"{at:x}: {name} {operands}: an instruction that isn't known here")
            accesses[at] = Access(at, name, operands)
    return accesses, wrong


def runs(log):
    """The instructions that were run, as their addresses and the registers before each."""
    values = re.compile(r"\b(X\d\d|SP)=([0-9a-f]{16})")
    at, registers = None, {}
    with open(log, encoding="ascii", errors="replace") as lines:
        for line in lines:
            if line.startswith(" PC="):
                at, registers = int(line[4:20], 16), {}
            if at is None:
                continue
            for name, value in values.findall(line):
                registers["sp" if name == "SP" else f"x{int(name[1:])}"] = int(value, 16)
            if "SP=" in line:
                yield at, registers
                at = None


def judge(program, start, end, log, seen):
    accesses, wrong = read(program, start, end)
    ran, shared, plain, between, found, count = set(), {}, {}, {}, {}, 0
    for at, registers in runs(log):
        count += 1
        access = accesses.get(at)
        if access is None:
            continue
        ran.add(at)
        place = access.place(registers)
        for byte in range(place, place + access.width):
            if access.is_ordered:
                # What comes between accesses of others would be found.
                for it in between.get(byte, set()) - {at}:
                    found[it] = found.get(it, 0) + 1
                between[byte] = between.get(byte, set()) & {at}
                if shared.get(byte, at) != at:
                    between[byte].add(at)
                shared[byte] = at
                wrong += plain.pop(byte, [])
            elif byte in shared:
                plain.setdefault(byte, []).append(f"{at:x}: {access.name} {access.operands}: plain, of a word that {shared[byte]:x} accesses too")
    kinds = {}
    for it in accesses.values():
        if it.is_ordered and not it.name.startswith("stlx"):
            kinds[it.name] = kinds.get(it.name, 0) + 1
    print(", ".join(f"{number} {name}" for name, number in sorted(kinds.items())), "in the code")
    atomic = sum(accesses[at].is_ordered for at in ran)
    print(f"{count} instructions were run; of {len(accesses)} that load or store {len(ran)}, of which {atomic} are atomic; {len(found)} of these had "
          "been found, were they plain")
    with open(seen, "w", encoding="ascii") as file:
        file.writelines(f"{at}\n" for at in sorted(found) if found[at] >= OFTEN)
    for it in sorted(set(wrong))[:20]:
        print(it)
    if not shared:
        print("no shared word was seen")
    return not wrong and bool(shared)


def plant(program, start, end, number, seen):
    """ldar and stlr, of 4 bytes or 8, become ldr and str."""
    plain = {0xC8DFFC00: 0xF9400000, 0x88DFFC00: 0xB9400000, 0xC89FFC00: 0xF9000000, 0x889FFC00: 0xB9000000}
    with open(seen, encoding="ascii") as file:
        ran = {int(line) for line in file}
    found = [it for it in instructions(program, start, end) if it[1] & ~0x3FF in plain and it[0] in ran]
    at, word, name, operands = found[int(number) % len(found)]
    with open(program, "rb+") as file:
        data = file.read()
        code = b"".join(it[1].to_bytes(4, "little") for it in instructions(program, start, end))
        offset = data.index(code) + at - start
        file.seek(offset)
        file.write((plain[word & ~0x3FF] | word & 0x3FF).to_bytes(4, "little"))
    print(f"{at:x}: {name} {operands} is plain now")
    return True


if __name__ == "__main__":
    whole = [sys.argv[1], int(sys.argv[2], 16), int(sys.argv[3], 16)]
    sys.exit(not {"judge": judge, "plant": plant}[sys.argv[4]](*whole, *sys.argv[5:7]))
