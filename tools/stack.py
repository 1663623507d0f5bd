#!/usr/bin/env python3
"""stack.py: puts the stack that each call takes, as tests/tests/stack.rs measures it, into include/valve_journal.h.

  tools/stack.py          runs the test over the archive in target/staticlib, and writes the lines VJ_STACK_x of the header anew
  tools/stack.py print    prints these lines, and writes nothing

A call's line is what the test saw it take, with at least 256 bytes added, rounded up to a multiple of 1024; VJ_STACK_MOST is the greatest.
Run it from the repository's root, after `tools/build journal_archive`. Exit status: 0 the lines are written or printed, 1 the test measured
other calls than the header has lines for, 2 bad usage."""
import re
import subprocess
import sys
from pathlib import Path

HEADER = Path("include/valve_journal.h")
TEST = ["cargo", "test", "--quiet", "--release", "--offline", "--manifest-path", "tests/Cargo.toml", "--test", "stack"]
# A row of the table that the test prints: the call, the bytes that it was seen to take, and those that the header says.
ROW = re.compile(r"^vj_(\w+) +(\d+) +\d+$", re.M)
LINE = re.compile(r"^    VJ_STACK_(\w+) = \d+(,?)$", re.M)


def rounded(taken):
    """The bytes that the header says of a call that was seen to take so many."""
    return -(-(taken + 256) // 1024) * 1024


def figures(text):
    """The name of each line of the header and its bytes, from what the test printed."""
    calls = {name.upper(): rounded(int(taken)) for name, taken in ROW.findall(text)}
    return {**calls, "MOST": max(calls.values(), default=0)}


def rewritten(header, bytes_of):
    """The header with these bytes in its lines; None where it has other lines."""
    if sorted(name for name, _ in LINE.findall(header)) != sorted(bytes_of):
        return None
    return LINE.sub(lambda line: f"    VJ_STACK_{line[1]} = {bytes_of[line[1]]}{line[2]}", header)


def main(words):
    """Runs the test, and writes or prints the lines."""
    if words not in ([], ["print"]):
        print(__doc__, file=sys.stderr)
        return 2
    ran = subprocess.run(TEST, capture_output=True, text=True, check=False)
    header = rewritten(HEADER.read_text(encoding="utf8"), figures(ran.stdout))
    if header is None:
        print("stack.py: the test measured other calls than the header has lines for\n" + ran.stdout + ran.stderr, file=sys.stderr)
        return 1
    if words:
        print("\n".join(line[0] for line in LINE.finditer(header)))
    else:
        HEADER.write_text(header, encoding="utf8")
    return 0


if __name__ == "__main__":
    sys.exit(main(sys.argv[1:]))
