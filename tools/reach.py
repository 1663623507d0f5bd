#!/usr/bin/env python3
"""reach.py [--text] [CRATE.MODULE.NAME]: the definitions that a statement reaches, lowest crate first.

By file, with their lines (comments, blanks and imports left out). With --text the definitions themselves with their comments, the structs of
the code that they name, and the names that they take from the toolchain's library: all that must be believed, as one text. Without a name:
point 3. Run it from the repository's root."""
import glob
import os
import re
import signal
import sys

HEAD = re.compile(r"^(?:unfoldable |abbrev )?(?:pub )?(?:(data|record) )?([^\s:]+)")
USE = re.compile(r"^use (\S+?)\.\{([^}]*)\}$")
OWN = re.compile(r"^Rattle\.(\w+)\.specs\.(declared\.)?(\w+)(?:\.TheVariants)?$")


class Definition:
    """A definition of a module: the heading of its part of the file, the comment above it, its lines."""

    def __init__(self, heading, comment, line):
        self.heading, self.comment, self.lines = heading, comment, [line]
        self.is_data = " data " in " " + line


class Module:
    """A file of definitions: what it names of others, its definitions in order, the type of each constructor."""

    def __init__(self, path):
        self.path, self.about, self.own, self.structs, self.library = path, [], {}, {}, {}
        self.definitions, self.constructors = {}, {}
        heading, above, current = [], [], None
        for line in open(path).read().split("\n"):
            if line.startswith("--"):
                above.append(line)
            elif line.startswith("use "):
                self.about, above = self.about or above, []
                self.take(line)
            elif not line.strip():
                heading, above = (above or heading), []
            elif line.startswith(" ") and current:
                self.definitions[current].lines.append(line)
                made = re.match(r"^  ((?:\w+ )*\w+) :", line)
                if made and self.definitions[current].is_data:
                    self.constructors.update((name, current) for name in made.group(1).split())
            elif HEAD.match(line):
                name = HEAD.match(line).group(2)
                if name == current:
                    self.definitions[name].lines.append(line)
                else:
                    self.definitions[name] = Definition(heading, above, line)
                above, current = [], name

    def take(self, line):
        """A line of imports: definitions of this project, structs of its code, or names of the toolchain's library."""
        use = USE.match(line)
        for name in use.group(2).split(",") if use else []:
            there, _, here = name.strip().partition(" as ")
            target = OWN.match(use.group(1))
            if not target or not os.path.isdir(f"crates/{target.group(1)}"):
                self.library[(here or there).strip("◌")] = (use.group(1), there)
            elif target.group(2):
                self.structs[here or there] = (target.group(1), target.group(3))
            else:
                self.own[here or there] = (f"{target.group(1)}.{target.group(3)}", there)


def words(definition):
    """The names in a definition's lines; a name with a dot also by its first part."""
    for line in definition.lines:
        for word in re.findall(r"[^\s(){};,]+", line.split(" -- ")[0]):
            yield word
            yield word.split(".")[0]


def named(modules, key, word):
    """The definition that a word stands for in a module: its own or one that it imports; of a constructor, its type."""
    for k, name in ((key, word), modules[key].own.get(word, (key, None))):
        if k in modules and name in modules[k].definitions:
            return k, name
        if k in modules and name in modules[k].constructors:
            return k, modules[k].constructors[name]
    if word in modules[key].own:
        print("not found:", key, word, file=sys.stderr)
    return None


def reached(modules, root):
    todo, seen = [root], set()
    while todo:
        key, name = todo.pop()
        if (key, name) in seen:
            continue
        seen.add((key, name))
        todo += filter(None, {named(modules, key, word) for word in words(modules[key].definitions[name])})
    return seen


def layers():
    """The crates' names, lowest first, and the modules of a crate in the order of its Lib."""
    crates = [line.split(":")[0] for line in open("crates.txt") if re.match(r"\w+:", line)]
    for crate in crates:
        lib = f"crates/{crate}/specs/Lib.antt"
        for module in re.findall(r"^pub mod (\w+)$", open(lib).read(), re.M) if os.path.exists(lib) else []:
            yield f"{crate}.{module}"


def struct(crate, name):
    """A struct or an enum of a crate's code with the comment above it."""
    for path in sorted(glob.glob(f"crates/{crate}/src/*.rt")):
        found = re.search(r"^((?://[^\n]*\n|#\[[^\n]*\n)*pub (?:struct|enum) %s\b.*?^\})" % name, open(path).read(), re.M | re.S)
        if found:
            return [f"-- in {path}:"] + found.group(1).split("\n")
    return [f"-- {name}: see crates/{crate}/src"]


def show_text(modules, order, seen):
    shown, library = set(), {}
    for key in order:
        module, here = modules[key], [n for n in modules[key].definitions if (key, n) in seen]
        used = {word for n in here for word in words(module.definitions[n])}
        for word in used & module.library.keys():
            source, there = module.library[word]
            library.setdefault(source, set()).add(there)
        structs = sorted({module.structs[word] for word in used & module.structs.keys()} - shown)
        shown.update(structs)
        blocks = [module.about] + [struct(*s) for s in structs] if here else []
        heading = None
        for name in here:
            d = module.definitions[name]
            if d.heading != heading and d.heading:
                blocks.append(d.heading)
            heading = d.heading
            blocks.append(d.comment + d.lines)
        if here:
            print(f"---------- {module.path}\n\n" + "\n\n".join("\n".join(b) for b in blocks if b) + "\n")
    print("---------- of the toolchain's library\n")
    for source in sorted(library):
        print(f"{source}: " + ", ".join(sorted(library[source])))
    print()


def main():
    names = [a for a in sys.argv[1:] if a != "--text"] or ["valve_log.Reached.Point3"]
    if "--help" in names or "-h" in names:
        print(__doc__)
        return
    if len(names) > 1 or names[0].count(".") != 2:
        sys.exit(__doc__)
    crate, module, name = names[0].split(".")
    order = list(layers())
    modules = {key: Module("crates/{}/specs/{}.antt".format(*key.split("."))) for key in order}
    if name not in getattr(modules.get(f"{crate}.{module}"), "definitions", {}):
        sys.exit(f"reach: crates/{crate}/specs/{module}.antt has no definition {name}")
    seen = reached(modules, (f"{crate}.{module}", name))
    if "--text" in sys.argv:
        show_text(modules, order, seen)
    total = 0
    for key in order:
        here = [n for n in modules[key].definitions if (key, n) in seen]
        lines = sum(len(modules[key].definitions[n].lines) for n in here)
        total += lines
        if here and "--text" not in sys.argv:
            print(f"{key}: {len(here)} definitions, {lines} lines: " + ", ".join(here))
    print("in all", len(seen), "definitions,", total, "lines")


signal.signal(signal.SIGPIPE, signal.SIG_DFL)
main()
