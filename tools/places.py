#!/usr/bin/env python3
"""Counts in src/ the places of each point of docs/DESIGN-PASS.md, and lists them with --list POINT.

    python3 tools/places.py [--at COMMIT] [--list POINT]

Places are found by their text, so that the same command finds them again after a change; the page says what each count means. A place that
stays as it is has a line `// Kept:` above it, with the reason, and is counted apart.
"""
import argparse
import collections
import pathlib
import re
import subprocess

TOP = pathlib.Path(__file__).resolve().parent.parent


def sources(commit):
    """The text of each file of src/, by its name."""
    if commit is None:
        files = sorted(TOP.glob("crates/*/src/**/*.rt"))
        return {str(f.relative_to(TOP)): f.read_text() for f in files}
    names = subprocess.run(["git", "-C", TOP, "ls-tree", "-r", "--name-only", commit, "crates"], capture_output=True, text=True, check=True)
    read = lambda name: subprocess.run(["git", "-C", TOP, "show", f"{commit}:{name}"], capture_output=True, text=True, check=True).stdout
    return {name: read(name) for name in names.stdout.split("\n") if re.match(r"crates/\w+/src/.*\.rt$", name)}


ITEM = re.compile(r"^( *)(?:pub )?(?:unsafe )?(?:extern \"C\" )?(fn|struct|enum|const) (\w+)", re.M)


def items(text):
    """Each item: its kind, name, text, the comment above it and its first line."""
    for m in ITEM.finditer(text):
        end = re.compile(r";$" if m.group(2) == "const" else r"^" + m.group(1) + r"\}", re.M).search(text, m.start())
        head = re.search(r"(?:^ *(?://|#).*\n)*\Z", text[: m.start()], re.M).group(0)
        yield m.group(2), m.group(3), text[m.start() : end.end() if end else len(text)], head, text.count("\n", 0, m.start()) + 1


def code(text):
    """The text without its comments."""
    return re.sub(r"//.*", "", text)


def flags(kind, name, text):
    """1: a struct with a flag or a number of a refusal beside values, or an enum of the shape of Option or Result."""
    if kind == "enum":
        return bool(re.search(r"\b(Missing|None|Nothing|Failed|Absent)\b", code(text)))
    if kind != "struct":
        return False
    fields = re.findall(r"^\s*(?:pub )?(\w+): ([^,\n]+),", code(text), re.M)
    is_flag = any(t == "bool" or n in ("number", "kind") and t == "u8" for n, t in fields)
    return is_flag and len(fields) > 1


def refuses(kind, name, text):
    """1: a function that answers the number of a refusal, or 0."""
    return kind == "fn" and bool(re.search(r"-> u8\b", text) and re.search(r"refus|_number\b|_needs\b|Fills", code(text)))


def coded(kind, name, text):
    """1: a constant that is the number of a kind, or stands for no value."""
    return kind == "const" and bool(re.search(r": (u8|u64|usize) = (\d|\d\d|65537|flash::BLOCKS);", text)) and name in (
        "IDLE APPEND COMMIT COLLECT FORMAT FLUSH PAGE BLOCK STEP CUT RECOVER BUFFER REFUSAL LOG_LENGTH VALVES_SET SETTING NEVER NO_BLOCK".split())


def loops(text):
    """3: the loops that count by hand."""
    for m in re.finditer(r"^ *(?:'\w+: )?(while|loop)\b.*\{", text, re.M):
        above = re.search(r"(?:^ *//.*\n)*\Z", text[: m.start()], re.M).group(0)
        function = [head for kind, _, body, head, line in items(text) if kind == "fn" and text.find(body) <= m.start()][-1:]
        yield text.count("\n", 0, m.start()) + 1, above + "".join(function), m.group(0).strip()


def shape(text):
    """2: a function with its names numbered in the order in which they stand, and its numbers, texts and types left out."""
    names = {}
    words = re.findall(r'b?"[^"]*"|\w+|[^\s\w]', re.sub(r"^ *(?:requires|ensures).*$", "", code(text), flags=re.M))
    keep = "fn pub let mut if else while for in return loop match true false as mod extern self".split()
    put = lambda w: "T" if re.match(r"(u8|u16|u32|u64|usize)$", w) else "N" if w[0].isdigit() or '"' in w else w if w in keep or not w[0].isalpha() else names.setdefault(
        w, f"x{len(names)}")
    return " ".join(put(w) for w in words if w != "'")


def hand_written(kind, name, text):
    """4: a function that std or a derive has: the lesser or greater of two, equality, a copy, a fill, 0 or 1 for a truth."""
    body = code(text)
    if kind != "fn":
        return False
    ones = re.search(r"return 1;\s*\}\s*0\s*\}", body) and len(re.findall(r"\bif\b", body)) == 1
    least = re.search(r"if (\w+) < (\w+) \{\s*(?:return )?(?:\1|\2);?\s*\}", body)
    copies = re.search(r"\{\s*(\w+)\[[^\]]*\] = (?:\w+\[[^\]]*\]|\d+);\s*(?:\w+\[[^\]]*\] = \w+\[[^\]]*\];\s*)?i [+-]= 1;\s*\}", body)
    names = re.search(r"^(same|eq|equal)\w*$", name) and "-> bool" in text
    return bool(ones or least or copies or names)


def conjuncts(text):
    """The facts of the requires clauses of a function."""
    for clause in re.findall(r"requires (?:\w+ )?\{(.*?)\}\s*(?:requires|ensures|\n\s*\{|$)", text, re.S):
        for part in re.split(r"×", clause):
            fact = part.strip()
            while fact.startswith("(") and fact.endswith(")"):
                fact = fact[1:-1].strip()
            yield re.sub(r"\s+", " ", fact)


def parameters(text):
    """The parameters of a function."""
    m = re.search(r"\(([^{]*?)\)\s*(?:->|requires|ensures|\{|$)", text, re.S)
    return [p.strip() for p in re.split(r",(?![^<\[(]*[>\])])", m.group(1)) if p.strip()] if m else []


def beside(kind, name, text):
    """6: a buffer with its length beside it, or arrays side by side."""
    if kind == "fn":
        ps = " ".join(parameters(text))
        return bool(re.search(r"\b(keys|ks|gkeys|words|vals|out|a|named|pages|valves): &(?:'\w )?(?:mut )?\[\w+\].*\b(n|count|c|g|entries|filled): usize", ps))
    return kind == "struct" and bool(re.search(r"count: usize", text) and re.search(r": \[", text))


def switches(kind, name, text):
    """7: a function that picks by two or more comparisons of one value with constants."""
    if kind != "fn":
        return False
    found = collections.Counter(re.findall(r"\bif (\w+) == [\w:]+", code(text)))
    return any(n >= 2 for n in found.values())


def main():
    parser = argparse.ArgumentParser()
    parser.add_argument("--at", metavar="COMMIT")
    parser.add_argument("--list", metavar="POINT")
    args = parser.parse_args()
    places = collections.defaultdict(list)
    facts = collections.defaultdict(list)
    shapes = collections.defaultdict(list)
    for name, text in sources(args.at).items():
        for line, head, what in loops(text):
            places["3 loops that count by hand"].append((name, line, what, head))
        before = ("", "")
        for kind, item, body, head, line in items(text):
            if kind == "const" and before[0] == "const" and "// Kept:" in before[1]:
                head += "// Kept: as the constant before it"
            before = (kind, head)
            put = lambda point: places[point].append((name, line, f"{kind} {item}", head))
            if flags(kind, item, body):
                put("1a flags and numbers beside values, own Option and Result")
            if refuses(kind, item, body):
                put("1b functions that answer a refusal's number")
            if coded(kind, item, body):
                put("1c constants for kinds and for no value")
            if hand_written(kind, item, body):
                put("4 equality, copies, lesser and greater by hand")
            if kind == "fn":
                for fact in set(conjuncts(body)):
                    facts[(name.split("/")[1], fact)].append((name, line, item))
                if body.count("\n") > 5 and "journal_archive" not in name:
                    shapes[shape(body)].append((name, line, f"fn {item}", head))
                if len(parameters(body)) > 8:
                    put("5b functions of more than eight parameters")
            if beside(kind, item, body):
                put("6 buffers with a length beside, parallel arrays")
            if switches(kind, item, body):
                put("7 switches on numbers")
    for (crate, fact), where in sorted(facts.items()):
        if len(where) >= 3:
            places["5a facts in three contracts or more"].append((f"crates/{crate}/src/lib.rt", 0, f"{fact} ({len(where)})", ""))
    for alike in shapes.values():
        if len(alike) > 1:
            places["2 functions of one shape"] += alike
    for point in sorted(places):
        kept = [p for p in places[point] if "// Kept:" in p[3]]
        print(f"{point}: {len(places[point])}, of these kept with a line {len(kept)}")
        if args.list and point.startswith(args.list):
            for name, line, what, head in places[point]:
                print(f"    {name}:{line}: {what}{' (kept)' if '// Kept:' in head else ''}")


main()
