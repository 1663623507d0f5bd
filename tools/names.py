#!/usr/bin/env python3
"""names.py [FILE..]: looks up each definition and theorem that the documents name as `crate` Module: `name`, `name` ..; prints those that are not there.

Without a file: docs/*.md, docs/landings left aside, since a landing note tells what there was. A crate's name in such a list counts as there. Run it from the repository's root."""
import glob
import os
import re
import sys

PLACE = re.compile(r"`(\w+)` ([A-Z]\w*): ((?:(?:, |; | and |, with )?`[^`]+`(?! [A-Z])(?: \([^)`]*\))?)+)")
DECLARED = r"^\s*(?:unfoldable |abbrev )?(?:pub )?(?:data |record )?(?:\w+ )*?%s(?: \w+)* ?[:({]"


def text_of(crate, module):
    """The definitions and the proofs of a module, or none where there is no such module."""
    paths = [f"crates/{crate}/{part}/{module}.antt" for part in ("specs", "proofs")]
    return "\n".join(open(p).read() for p in paths if os.path.exists(p))


def named(path):
    """Each crate, module and name of a document, with the line."""
    for number, line in enumerate(open(path), 1):
        for crate, module, rest in PLACE.findall(line):
            for name in re.findall(r"`([^` ]+)`", rest) if os.path.isdir(f"crates/{crate}") else []:
                yield number, crate, module, name


count = missing = 0
for path in sys.argv[1:] or sorted(glob.glob("docs/*.md")):
    for number, crate, module, name in named(path):
        count += 1
        if not re.search(DECLARED % re.escape(name), text_of(crate, module), re.M) and not os.path.isdir(f"crates/{name}"):
            missing += 1
            print(f"{path}:{number}: {crate} {module} {name}")
print(f"{count} names, {missing} not there")
sys.exit(1 if missing else 0)
