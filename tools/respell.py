#!/usr/bin/env python3
"""Spells the names that the crates' specs/ and proofs/ declare as Rattle's libraries do: in snake case.

usage: tools/respell.py [--list]     at the top of the repository, once; --list prints the table and writes nothing

`pagesIn` becomes `pages_in`, `count-next` becomes `count_next`, and `X_lem` where a lemma would meet another name. A name that a library
declares, and one that stands for a goal of a function, stays. Functions, strings and inputs are not touched.
"""

import collections
import os
import re
import sys

DECLARED = re.compile(
    r"^\s*(?:(?:abbrev|unfoldable|pattern|pub)\s+)*([a-z][\w'\-]*)((?:\s+\{[^{}]*\})*)\s*:(?!:)"
)
ALIAS = re.compile(r"[\w'\-]+ as ([a-z][\w'\-]*)")
USE = re.compile(r"^(?:ghost )?use ([^\s{;]+?)\.\{([^}]*)\}", re.M)
TOKEN = re.compile(r"(?<![\w'\-])[a-z][\w']*(?:-[\w']+)*(?![\w'\-])")
# Lemmas that were spelled so before, beside a definition whose name now becomes theirs: where they stand.
LEMMAS = {
    "goes_on": ["crates/recover/proofs/BaseFirst.antt"],
    "is_read": ["crates/log_reader/proofs/FirstToLast.antt"],
    "one_set": ["crates/listed_history/"],
    "raised_at": ["crates/cut_patterns/proofs/CutsAllowed.antt"],
    "same_effect": ["crates/effects/", "crates/mattered/"],
    "size_ok": ["crates/listed_history/", "crates/recorded_runs/", "crates/test_pages/"],
}
STRING = re.compile(r'"(?:[^"\\\n]|\\.)*"')


def texts():
    for folder, dirs, files in os.walk("crates"):
        dirs[:] = sorted(d for d in dirs if d != "out")
        for f in sorted(files):
            if f.endswith((".antt", ".rt")):
                yield os.path.join(folder, f)


def of_function(path):
    """Whether a file belongs to one function's proof."""
    return bool(re.match(r"crates/\w+/proofs/.+/", path))


def spelled(name):
    words = re.sub(r"(?<=[a-z0-9])[A-Z]", lambda m: "_" + m[0].lower(), name)
    return words


def main():
    crates = {c for c in os.listdir("crates")}
    content = {p: open(p, encoding="utf-8").read() for p in texts()}
    declared, foreign, goals = set(), set(), set()
    for p, t in content.items():
        for m in USE.finditer(t):
            parts = m[1].split(".")
            own = len(parts) > 1 and parts[0] == "Rattle" and parts[1] in crates
            generated = own and len(parts) > 3 and parts[2] == "proofs" and parts[3][:1].islower()
            for n in m[2].split(","):
                n = n.strip()
                if " as " in n:
                    if not of_function(p):
                        declared.add(n.split(" as ")[1].strip())
                    n = n.split(" as ")[0].strip()
                if not own or generated:
                    foreign.add(n)
        if p.endswith(".rt"):
            continue
        for line in t.split("\n"):
            if line.strip().startswith("--"):
                continue
            m = DECLARED.match(line)
            if m:
                (goals if of_function(p) else declared).add(m[1])
    turned = {n for n in declared if spelled(n) != n or "-" in n}
    turned -= foreign
    # In which texts of proofs and definitions each word stands.
    places = collections.defaultdict(set)
    for p, t in content.items():
        if p.endswith(".antt"):
            for w in TOKEN.findall(t):
                places[w].add(p)
    table = {n: spelled(n) for n in turned if "-" not in n}
    taken = set(table.values()) | (declared - turned) | foreign
    for n in sorted(turned):
        if "-" not in n:
            continue
        plain = spelled(n).replace("-", "_")
        for new in (plain, plain + "_lem", spelled(n)):
            if new not in taken and not (places[n] & places[new]):
                break
        if new != plain:
            print(f"meets another: {n} becomes {new}")
        table[n] = new
        taken.add(new)
    for o, n in sorted(table.items()):
        if o != n and "-" not in o and places[o] & places[n]:
            print(f"{n} stands beside {o}: {' '.join(sorted(places[o] & places[n]))}")
    table = {o: n for o, n in table.items() if o != n}
    if "--list" in sys.argv[1:]:
        for o, n in table.items():
            print(f"{o}\t{n}")
        return

    def turn(text, skip):
        return TOKEN.sub(lambda m: m[0] if m[0] in skip else table.get(m[0], m[0]), text)

    for p, t in content.items():
        first = t
        if p.endswith(".antt"):
            for n, where in LEMMAS.items():
                if p.startswith(tuple(where)):
                    t = re.sub(rf"(?<!proofs\.)(?<![\w'\-]){n}(?![\w'\-])", n + "_lem", t)
        own = set()
        if of_function(p):
            for line in t.split("\n"):
                m = DECLARED.match(line)
                if m:
                    own.add(m[1])
        lines = []
        for line in t.split("\n"):
            if p.endswith(".rt"):
                out, at = "", 0
                for m in STRING.finditer(line):
                    out += turn(line[at:m.start()], own) + m[0]
                    at = m.end()
                lines.append(out + turn(line[at:], own))
            else:
                lines.append(turn(line, own))
        new = "\n".join(lines)
        if new != first:
            with open(p, "w", encoding="utf-8") as f:
                f.write(new)
    print(f"{len(table)} names spelled anew")


if __name__ == "__main__":
    main()
