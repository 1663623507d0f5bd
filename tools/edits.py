#!/usr/bin/env python3
"""edits.py: holds the must-fail edits, crates/CRATE/must-fail/LABEL.edit, to their files, to docs/READING.md and to what the prover says.

  tools/edits.py          each edit that the tables of "What is ruled out" name is there, each edit that is there is named
                          in them, and the text after each `old:` stands once in its file
  tools/edits.py list [CRATE ..]
                          prints each edit, of all crates or of those named: its label in words, its file, and what it changes
  tools/edits.py errors [LOG]
                          after `.ci/run`: prints the edits that were not refused, and those whose first error speaks of the shape
                          of a proof (a name that is gone or not there, an import that is not used) and not of a fact that no longer
                          holds, or says something that is not known here. LOG is what `rt ci` or `rt must-fail` printed, without
                          one target/gate.log

Run it from the repository's root. Exit status: 0 nothing to say, 1 something is wrong, 2 bad usage."""
import glob
import os
import re
import sys
from pathlib import Path

HEADING = "## What is ruled out"
# A crate between backquotes, or a label beside it; a label has an underscore, and other words of a table have none.
TOKEN = re.compile(r"`(\w+)`|`[^`]*`|(?<!\w)(\w*_\w*)(?!\w)")
# What a first error says where a fact no longer holds.
FACTS = re.compile(r"no proof of|the two types|expected type|does not follow|it is not proved that|give a proof of that"
                   r"|list the missing equation|lands at index|the two sides differ|does not hold|is not proved")
# What it says where an edit changed the shape of a proof, each with the words for it. The others are read by a person.
SHAPES = [
    ("only a name that the edit took away", re.compile(r"^\(only because a proof file names")),
    ("only a limit of the prover", re.compile(r"^\(only by a limit")),
    ("a name that is not there", re.compile(r"can be named from here|not in scope|has no field|has no `|exports no `")),
    ("a line that is not used", re.compile(r"\bunused\b")),
    ("only what an earlier error holds back", re.compile(r"was not admitted|was not checked|admitted by the kernel")),
    ("a rewriting that finds nothing", re.compile(r"`rw`: no occurrence")),
]
# A line for an edit: what became of it, and its first error, cut off, where it was refused.
TRIED = re.compile(r"^rt: must-fail (\w+)/([\w.-]+)\.edit: (refused, as it must be|[A-Z]+ [A-Z]+):? ?(.*)$")
ERROR = re.compile(r"^(?:note: )?(?:what antt said of [^:]*: )?(\S*:\d+:\d+): (?:error(?:\[[^\]]*\])?: )?(.*)$")


def pairs_of(edit):
    """The file, the old and the new text of each replacement of an edit."""
    file = old = None
    for line in Path(edit).read_text(encoding="utf8").split("\n"):
        if line.startswith("file: "):
            file = line[6:]
        elif line.startswith("old: "):
            old = line[5:]
        elif line.startswith("new:"):
            yield file, old, line[5:]


def named_in(text):
    """Each crate and label that the tables under the heading name, with the line."""
    inside = False
    for number, line in enumerate(text.split("\n"), 1):
        if line.startswith("## "):
            inside = line == HEADING
        if not inside or not line.startswith("| "):
            continue
        crates, end = [], -9
        last = line.rstrip(" |").split(" | ")[-1]
        for token in TOKEN.finditer(last):
            crate, label = token.groups()
            if crate:
                joined = crates and last[end:token.start()] == " and "
                crates, end = (crates + [crate] if joined else [crate]), token.end()
            elif label:
                for crate in crates:
                    yield number, crate, label


def labels():
    """Each edit by its crate and its label."""
    return {tuple(re.split("/must-fail/", e[len("crates/"):-len(".edit")])) for e in glob.glob("crates/*/must-fail/*.edit")}


def print_all(crates):
    """The edits of these crates, or of all where none is named."""
    chosen = [(c, l) for c, l in sorted(labels()) if not crates or c in crates]
    text = ""
    for crate, label in chosen:
        text += f"{crate}: {label.replace('_', ' ')}\n"
        for file, old, new in pairs_of(f"crates/{crate}/must-fail/{label}.edit"):
            text += f"    {file}\n    - {old.strip()}\n    + {new.strip()}\n"
    try:
        print(f"{text}edits: {len(chosen)} edits", flush=True)
    except BrokenPipeError:  # the reader has seen enough
        os.dup2(os.open(os.devnull, os.O_WRONLY), sys.stdout.fileno())


def check_names(reading):
    """What is wrong between the tables and the edits, and the edits with their files."""
    there, named, wrong = labels(), set(), []
    for number, crate, label in named_in(Path(reading).read_text(encoding="utf8")):
        named.add((crate, label))
        if (crate, label) not in there:
            wrong.append(f"{reading}:{number}: there is no crates/{crate}/must-fail/{label}.edit")
    wrong += [f"crates/{c}/must-fail/{l}.edit: {reading} does not name it" for c, l in sorted(there - named)]
    for crate, label in sorted(there):
        edit = f"crates/{crate}/must-fail/{label}.edit"
        pairs = list(pairs_of(edit))
        wrong += [f"{edit}: it replaces nothing"] if not pairs else []
        for file, old, _ in pairs:
            path = f"crates/{crate}/{file}"
            times = Path(path).read_text(encoding="utf8").count(old) if old and os.path.exists(path) else 0
            wrong += [f"{edit}: its old text stands {times} times in {path}"] if times != 1 else []
    return len(there), wrong


def shape_of(said):
    """The words for a first error that is no fact, or none."""
    place, message = (ERROR.match(said) or re.match("()(.*)", said)).groups()
    if not message:
        return "no error at all"
    if re.search(r"(^|/)specs/", place) and "lands at index" not in message:  # that is a computed example, which may stand there
        return "a definition that is none"
    words = next((words for words, form in SHAPES if form.search(message)), None)
    return words or (None if FACTS.search(message) else "not known to be a fact")


def check_errors(lines):
    """What is wrong with the edits of a log, and how many there are."""
    tried, wrong = [it for it in (TRIED.match(line.rstrip()) for line in lines) if it], []
    for crate, label, verdict, said in (it.groups() for it in tried):
        words = shape_of(said) if verdict.startswith("refused") else verdict
        if words:
            wrong.append(f"{crate}/{label}: {words}: {said[:240]}")
    return len(tried), sorted(wrong)


def main(words):
    if "--help" in words or "-h" in words:
        print(__doc__)
        return 0
    if words[:1] == ["errors"] and len(words) <= 2:
        log = Path(words[1] if len(words) == 2 else "target/gate.log")
        count, wrong = check_errors(log.read_text(encoding="utf8", errors="replace").split("\n") if log.is_file() else [])
        if not count:
            print(f"edits: no edit was tried in {log}; `.ci/run` writes target/gate.log, and `rt must-fail` prints such a log")
            return 2
        print("\n".join(wrong + [f"edits: {count} edits, {len(wrong)} to be looked at"]))
        return 1 if wrong else 0
    if words[:1] == ["list"]:
        unknown = [c for c in words[1:] if not os.path.isdir(f"crates/{c}")]
        if unknown:
            print("edits: no crate " + ", ".join(unknown))
            return 2
        print_all(words[1:])
        return 0
    if words:
        print(__doc__)
        return 2
    count, wrong = check_names("docs/READING.md")
    print("\n".join(wrong + [f"edits: {count} edits, {len(wrong)} faults"]))
    return 1 if wrong else 0


if __name__ == "__main__":
    sys.exit(main(sys.argv[1:]))
