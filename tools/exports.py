#!/usr/bin/env python3
"""exports.py [ROOT]: reads the signature of each function that the archive for C exports and prints what is wrong with it.

An export is called by C and Rust programs with any argument, so it has no `requires`, and has an `ensures`. It may change no lent
byte but those that the list below names: the medium at a step, the write buffer, and the lists that a reading fills; a promise
that speaks of a slice as it was given says nothing of what a function that takes it mutably leaves there. Exports are those of the
static libraries of crates.txt. Each does nothing but call the function of its own name in a crate below, which programs in Rattle
call, with the same parameters and the same promise. Each export is declared in both files for users, and they declare no other.
Exit status: 0 all is well, 1 something is wrong, 2 bad usage."""
import glob
import re
import sys
from pathlib import Path

# The parameters that an export takes by `&mut`.
LENT = {
    "vj_log": ["keys", "words", "groups"],
    "vj_mattered": ["groups"],
    "vj_settings": ["valves", "words"],
    "vj_buffer": ["b"],
    "vj_step": ["m", "b"],
}
# The files for users, and what declares a function of the library in each.
DECLARED = {
    "include/valve_journal.h": re.compile(r"^(?!static )(?:\w+ )+\*?(vj_\w+)\(", re.M),
    "include/valve_journal.rs": re.compile(r"^    fn (vj_\w+)\(.*;$", re.M),
}
MARK = "#[unsafe(no_mangle)]"
FORM = re.compile(r'\s*pub extern "C" fn (\w+)(?:<[^>]*>)?\(')
# A static library's line of crates.txt.
STATIC = re.compile(r"^(\w+) +staticlib\b", re.M)
CALL = re.compile(r"\{\s*(\w+)::(\w+)\(([^()]*)\)\s*\}")


def without_comments(text):
    """The text without what stands after // on a line."""
    return re.sub(r"//[^\n]*", "", text)


def parameters(text):
    """What stands between the parentheses that are open at the start of a text, cut at its outermost commas, and the rest."""
    depth, part, parts = 0, "", []
    for at, x in enumerate(text):
        if x in ")" and depth == 0:
            return [p.strip() for p in parts + [part] if p.strip()], text[at + 1:]
        depth += (x in "([{<") - (x in ")]}>")
        part, parts = ("", parts + [part]) if x == "," and depth == 0 else (part + x, parts)
    return [], ""


def body_at(text):
    """Where a function's body opens: a brace that no `requires` and no `ensures` stands before."""
    depth, contract = 0, False
    for at, x in enumerate(text):
        if x == "{" and depth == 0 and not contract:
            return at
        depth += (x == "{") - (x == "}")
        if x == "}" and depth == 0:
            contract = False
        if depth == 0 and re.search(r"\b(requires|ensures)\*?(\s+\w+)?\s*$", text[:at + 1]):
            contract = True
    return len(text)


def faults_of(name, after, lent):
    """What is wrong with one export: its name, the text after its opening parenthesis, and the parameters it may take by `&mut`."""
    given, rest = parameters(after)
    contract = rest[:body_at(rest)]
    if re.search(r"\brequires\b", contract):
        yield f"{name} has a `requires`, and a caller in C or Rust is not held to it"
    if not re.search(r"\bensures\b", contract):
        yield f"{name} has no `ensures`, so nothing is promised of it"
    mutable = [p.split(":")[0].strip() for p in given if re.search(r"&\s*(?:'\w+\s+)?mut\b", p)]
    for p in mutable:
        if p not in lent:
            yield f"{name} takes `{p}` by `&mut`, which the list in tools/exports.py does not name"
    for p in lent:
        if p not in mutable:
            yield f"{name} no longer takes `{p}` by `&mut`: take it off the list in tools/exports.py"


def head_in(texts, name):
    """The parameters, the answer and the clauses of a function, its spaces made one, or None where no text has it."""
    for text in texts:
        found = re.search(rf"\bpub (?:extern \"C\" )?fn ({name}\b.*)", text, re.S)
        if found:
            return re.sub(r"\s+", " ", found.group(1)[:body_at(found.group(1))]).strip()
    return None


def not_passed_on(root, name, text):
    """What is wrong with an export that should only call the function of its name; its text begins at its name."""
    at = body_at(text)
    call = CALL.match(text, at)
    if not call or call.group(2) != name:
        return f"{name} does something else than call the function of its name"
    crate = call.group(1)
    given, _ = parameters(text[text.index("(") + 1:])
    if [p.split(":")[0].strip() for p in given] != [a.strip() for a in call.group(3).split(",") if a.strip()]:
        return f"{name} hands on something else than its parameters in their order"
    if head_in(texts_of(root, crate), name) != re.sub(r"\s+", " ", text[:at]).strip():
        return f"{name} has not the parameters and the promise of {crate}::{name}"
    return None


def texts_of(root, crate):
    """The sources of a crate, comments left out."""
    paths = sorted(glob.glob(f"{root}/crates/{crate}/src/**/*.rt", recursive=True))
    return [without_comments(Path(path).read_text(encoding="utf8")) for path in paths]


def check(root, lent):
    """The number of exports under a folder, and what is wrong with them."""
    names, wrong = [], []
    for crate in STATIC.findall(Path(f"{root}/crates.txt").read_text(encoding="utf8")):
        for text in texts_of(root, crate):
            marked = text.split(MARK)[1:]
            if len(marked) != len(re.findall(r'\bextern "C" fn\b', text)):
                wrong.append(f'{crate}: an `extern "C" fn` without {MARK}, or the other way round')
            for after in marked:
                form = FORM.match(after)
                if not form:
                    wrong.append(f'{crate}: {MARK} before something else than `pub extern "C" fn`')
                    continue
                name = form.group(1)
                names.append(name)
                wrong += [f"{crate}: {w}" for w in faults_of(name, after[form.end():], lent.get(name, []))]
                fault = not_passed_on(root, name, after[form.start(1):])
                wrong += [f"{crate}: {fault}"] if fault else []
    wrong += [f"{name} is no export: take it off the list in tools/exports.py" for name in lent if name not in names]
    for path, form in DECLARED.items():
        declared = form.findall(Path(f"{root}/{path}").read_text(encoding="utf8"))
        wrong += [f"{path} does not declare {name}" for name in names if name not in declared]
        wrong += [f"{path} declares {name}, which is no export" for name in declared if name not in names]
    return len(names), wrong


def main(words):
    if "--help" in words or "-h" in words or len(words) > 1:
        print(__doc__)
        return 0 if len(words) == 1 else 2
    count, wrong = check(words[0] if words else ".", LENT)
    if not count:
        wrong.append("there is no export")
    print("\n".join(f"exports: {w}" for w in wrong) if wrong else f"exports: {count}, each as it should be")
    return 1 if wrong else 0


if __name__ == "__main__":
    sys.exit(main(sys.argv[1:]))
