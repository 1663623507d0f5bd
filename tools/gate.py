#!/usr/bin/env python3
"""gate.py [LOG] [--times FILE]: whether a gate passed, what it proved, and which must-fail edits are to be looked at.

LOG is what `rt ci` printed; without it standard input is read. `.ci/run` leaves target/gate.log. A bad edit is one whose text does not
stand in its file or cannot be read: it shows nothing of a promise, and `rt ci` passes all the same, but the gate does not. With --times, a
file that bash's `times` wrote after that command, the core minutes are told. Exit status: 0 it passed, 1 it did not, or an edit is bad,
2 bad usage."""
import re
import sys
from pathlib import Path

PROVED = re.compile(r"^rt: (\w+)(: its tests)? (proved|NOT PROVED|is kept)\b")
FUNCTIONS = re.compile(r"^logic=proved functions=(\d+) ")
EDIT = re.compile(r"^rt: must-fail (\w+)/([\w.-]+)\.edit: (refused, as it must be|NOT REFUSED|NOT TRIED|BAD EDIT)(.*)$")
OK = re.compile(r"^rt: ok; ")
BAD = re.compile(r", (\d+) bad\b")
TIMES = re.compile(r"(\d+)m([\d.]+)s")
# What `rt` says behind the refusal of an edit that says little of a promise, and the words for it here.
LITTLE = {"(only because a proof file names what the edit took away": "by a name", "(only by a limit": "by a limit"}


class Log:
    """What a run of `rt ci` printed: each crate's verdict, the functions proved in this run, each edit's, and the line `rt: ok`."""

    def __init__(self, lines):
        self.crates, self.functions, self.edits, self.ok, self.last = {}, 0, {}, None, ""
        for line in lines:
            line = line.rstrip()
            crate, functions, edit = PROVED.match(line), FUNCTIONS.match(line), EDIT.match(line)
            if crate and not crate.group(2):
                self.crates[crate.group(1)] = crate.group(3)
            if functions:
                self.functions += int(functions.group(1))
            if edit:
                said = next((words for start, words in LITTLE.items() if edit.group(4).strip().startswith(start)), "")
                self.edits[edit.group(1), edit.group(2)] = f"refused {said}".strip() if edit.group(3).startswith("refused") else edit.group(3)
            if OK.match(line):
                self.ok = line
            self.last = line or self.last

    def bad(self):
        """How many edits are bad, by the line `rt: ok` and by the edits' own lines."""
        told = BAD.search(self.ok or "")
        return max(int(told.group(1)) if told else 0, list(self.edits.values()).count("BAD EDIT"))

    def passed(self):
        return self.ok is not None and re.fullmatch(r"\d+ passed, 0 failed", self.last) is not None and not self.bad()


def core_seconds(text):
    """The user and system seconds of a shell's children: the second line that `times` writes."""
    return sum(60 * int(m) + float(s) for m, s in TIMES.findall(text.strip().split("\n")[-1]))


def told(log, core):
    """What is told of a log, a line for each edit that is to be looked at first."""
    lines = [f"{crate}/{label}: {said}" for (crate, label), said in sorted(log.edits.items()) if said != "refused"]
    kept, proved = (list(log.crates.values()).count(it) for it in ("is kept", "proved"))
    refused = sum(said.startswith("refused") for said in log.edits.values())
    line = f"gate: {len(log.crates)} crates, {proved} proved in this run, with {log.functions} functions, and {kept} in an earlier one of the same files"
    line += f"; {refused} of {len(log.edits)} edits refused, {log.bad()} bad"
    return lines + [line + (f"; {core / 60:.1f} core minutes" if core else "")]


def main(words):
    if "--help" in words or "-h" in words:
        print(__doc__)
        return 0
    times = path = None
    while words:
        word = words.pop(0)
        if word == "--times" and words:
            times = words.pop(0)
        elif word.startswith("-") or path:
            print(__doc__)
            return 2
        else:
            path = word
    log = Log(Path(path).read_text(encoding="utf8", errors="replace").split("\n") if path else sys.stdin)
    print("\n".join(told(log, core_seconds(Path(times).read_text(encoding="utf8")) if times else 0)))
    if not log.passed():
        print("gate: NOT PASSED", file=sys.stderr)
    return 0 if log.passed() else 1


if __name__ == "__main__":
    sys.exit(main(sys.argv[1:]))
