#!/usr/bin/env python3
"""Brings the repository's own names to today's spelling, once, after port.py: definitions, lemmas, record fields and constructors that
begin with a small letter are written in snake case (`queueAt` is `queue_at`, `same-length` is `same_length`). Types, modules, the letters of
document 01 (`M`, `N`, `W`) and the functions of src/ keep their names. A lemma that would have the name of a definition gets `_lem`.

    python3 tools/rename.py [--check]

It goes by text: a name is the repository's own where a file of specs/ or proofs/ declares it, and no file imports it from a library. With
--check it writes nothing. It prints the names that would fall together, and exits with 1 where there are any."""
import collections
import glob
import os
import re
import sys

CRATES = sorted(os.listdir("crates"))
ANTT = [p for c in CRATES for d in ("specs", "proofs") for p in sorted(glob.glob(f"crates/{c}/{d}/**/*.antt", recursive=True))]
RATTLE = sorted(glob.glob("crates/*/src/*.rt"))
EDITS = sorted(glob.glob("crates/*/must-fail/*.edit"))
PAGES = sorted(glob.glob("docs/**/*.md", recursive=True)) + ["README.md"]
DECLARED = re.compile(r"^\s*(?:(?:pub|abbrev|unfoldable|package)\s+)*((?:[^\s(){};,.·:]+\s+)*[^\s(){};,.·:]+)\s*:(?:\s|$)")
NAME = re.compile(r"[^\s(){}\[\];,.·`\"@|:]+")
IMPORT = re.compile(r"\buse\s+([^\s{;]+)\.\{([^}]*)\}")


def own(module):
    parts = re.match(r"Rattle[.·]([a-z_0-9]+)", module)
    return bool(parts) and parts.group(1) in CRATES


def spelled(name):
    """in snake case; a letter of document 01 at the head stays a capital"""
    name = name.replace("′", "'")
    humps = re.sub(r"(?<=[a-z0-9])([A-Z])(?=[a-z])", lambda m: "_" + m.group(1).lower(), name)
    humps = re.sub(r"(?<=[a-z])([A-Z])(?=[0-9]|$|-)", r"_\1", humps)
    return humps.replace("-", "_")


def wanted(name):
    head = name[0]
    if not (head.isalpha() and (head.islower() or re.match(r"[A-Z]\d*-", name))):
        return False
    return "-" in name or bool(re.search(r"[a-z0-9][A-Z]", name))


def read(path):
    with open(path, encoding="utf-8") as file:
        return file.read()


declared, library = collections.defaultdict(set), set()
for path in ANTT:
    for line in read(path).splitlines():
        found = DECLARED.match(line)
        if found and not line.lstrip().startswith(("let ", "--", "use ")):
            for name in found.group(1).split():
                declared[name].add(path)
# what only a proof by hand declares are the names of its steps
declared = {name: paths for name, paths in declared.items() if any(not path.endswith("/Proof.antt") for path in paths)}
for path in ANTT + RATTLE:
    for module, names in IMPORT.findall(read(path)):
        if not own(module):
            library |= {name.split(" as ")[0].strip() for name in names.split(",")}

table = {name: spelled(name) for name in declared if wanted(name) and name not in library}
table = {name: new for name, new in table.items() if new != name}

taken = set(declared) | {new for name, new in table.items() if "-" not in name}
for name in sorted(table):
    if "-" in name and table[name] in taken - {name}:
        table[name] += "_lem"

# names that fall together: two that become one, or one that becomes a name that is there already and is used in the same file
together = collections.defaultdict(set)
for name, new in table.items():
    together[new].add(name)
bad = []
for new, names in sorted(together.items()):
    if len(names) > 1:
        bad.append((new, sorted(names), ["they become one"]))
for path in ANTT:
    words = set(NAME.findall(re.sub(r"--.*", "", read(path))))
    for name in words & table.keys():
        if table[name] in words:
            bad.append((table[name], [name], [path]))
for new, names, where in bad:
    print(f"look: {new}: {', '.join(names)}: {', '.join(where)}")


def turned(text):
    return NAME.sub(lambda found: table.get(found.group(0), found.group(0)), text)


def turn_line(line):
    return line if re.match(r"\s*(--|//)", line) and "`" not in line else turned(line)


def turn(path):
    text = read(path)
    if path.endswith(".md"):
        new = re.sub(r"`[^`\n]*`", lambda found: turned(found.group(0)), text)
    elif path.endswith(".edit"):
        new = "".join(turned(line) if line.startswith(("old:", "new:")) else line for line in text.splitlines(keepends=True))
    else:
        def comment(line):
            return re.sub(r"`[^`\n]*`", lambda found: turned(found.group(0)), line)
        new = "".join(comment(line) if re.match(r"\s*(--|//)", line) else turned(line) for line in text.splitlines(keepends=True))
    if new != text and "--check" not in sys.argv:
        with open(path, "w", encoding="utf-8") as file:
            file.write(new)
    return new != text


changed = [path for path in ANTT + RATTLE + EDITS + PAGES if turn(path)]
print(f"{len(table)} names, {len(changed)} files, {len(bad)} to look at")
sys.exit(1 if bad else 0)
