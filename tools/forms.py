#!/usr/bin/env python3
"""Counts, in the Rattle sources of a folder, the places of each point of the design pass (docs/DESIGN-PASS.md).

    tools/forms.py [FOLDER] [POINT..]

Without a point it prints one line for each count; with points it prints each place of them too. A place is a line of crates/*/src/*.rt that
a pattern below finds, so that a count says where to look and not what is wrong there: what is kept is said on the page, place by place.
"""
import pathlib
import re
import sys

# point, what is counted, and the pattern that finds a line of it
COUNTS = [
    ("1", "enums", r"^\s*(pub(\(crate\))? )?enum \w+"),
    ("1", "fields that are a number, a flag or a sentinel beside a value", r"^    pub (number|present|right|taken): "),
    ("1", "functions that answer a refusal's number as a u32", r"fn \w*(refusal|refused|number_of)\w*(<[^>]*>)?\(.*-> u32"),
    ("1", "refusals written as a number", r"(return ([4-9]|1[0-8]);|number: ([4-9]|1[0-8])\b|(refused|Refused|no_jobs|no_speeds)\(\d+)"),
    ("1", "tests of a number against 0", r"\b(number|fields|speeds) != 0\b"),
    ("1", "constants that stand for kinds, words, columns, problems", r"^(pub )?const [A-Z_]+: (u32|u64|usize) ="),
    ("2", "functions whose body has another's shape, names and numbers aside", "twins"),
    ("2", "enums, and structs of four fields or more, whose declaration has another's shape", "types"),
    ("3", "while and loop", r"^\s*('\w+: )?(while|loop)\b"),
    ("3", "for", r"^\s*('\w+: )?for\b"),
    ("3", "iterator chains", r"\.(iter|iter_mut|into_iter|all|any|position|find|sum|fold|enumerate|zip|chunks\w*|map|try_for_each)\("),
    ("4", "comparing, taking the larger, cutting off at 0 and the like, written by hand",
     r"fn (same|larger|smaller|less|above|between|is_job|one_fewer|one_more|wide|byte_of|line_end|lay|digit_of|with_digit)(<[^>]*>)?\("),
    ("5", "clauses that HoldsCounts", r"HoldsCounts \w+\.now"),
    ("5", "clauses that 4 to 8 pass", r"fields_refusal \(view_of [\w.]+\) ≡ 0"),
    ("5", "clauses that sizes are Measured", r"Measured \w+"),
    ("5", "clauses that a pass is Given", r"\bGiven width"),
    ("5", "clauses that a table is EntryTable or SpeedTable", r"(EntryTable|SpeedTable) \w+\.\w+"),
    ("5", "functions of more than seven parameters", None),
    ("6", "offsets into a table worked out by hand", r"lanes\[[^\]]*[+\d]|numbers\[[^\]]*\+"),
    ("6", "arrays of a program with more than 60,000 places in a signature", r": &(mut )?\[u(8|64); \d{5,}\]"),
    ("7", "switches on a kind that is a number", r"if \w*(\.)?kind (==|<=|<) "),
]


def sources(folder):
    for path in sorted(pathlib.Path(folder).glob("crates/*/src/**/*.rt")):
        yield path, path.read_text().split("\n")


KEYWORDS = set("if else let mut while loop for in return match fn pub struct enum impl self true false as ref const".split())


def shape(text):
    """Its words and signs in order, each name but the language's own, and each number, put as one sign."""
    text = re.sub(r"//[^\n]*", "", text)
    words = re.findall(r"[A-Za-z_]\w*|\d[\w.]*|[^\s\w]", text)
    return " ".join(w if w in KEYWORDS or not re.match(r"\w", w) else ("n" if w[0].isdigit() else "x") for w in words)


def bodies(text):
    """Each function's place, name and body: from the brace that opens it, behind the clauses, to the one that stands where its line begins."""
    lines = text.split("\n")
    for place, line in enumerate(lines):
        found = re.match(r"( *)(pub(\(crate\))? )?(extern \"C\" )?fn (\w+)", line)
        if not found:
            continue
        indent = found.group(1)
        end = next((k for k in range(place + 1, len(lines)) if lines[k].startswith(indent + "}")), place)
        alone = next((k for k in range(place + 1, end) if lines[k] == indent + "{"), None)
        begin = alone if alone is not None else next((k for k in range(place, end) if lines[k].endswith("{")), place)
        yield place + 1, "fn " + found.group(5), "\n".join(lines[begin + 1 : end])


def declarations(text):
    for found in re.finditer(r"^(?:pub )?(struct|enum) (\w+)[^{;]*\{(.*?)^\}", text, re.M | re.S):
        if found.group(1) == "enum" or 4 <= found.group(3).count("\n    pub "):
            yield text[: found.start()].count("\n") + 1, f"{found.group(1)} {found.group(2)}", found.group(3)


def alike(folder, parts, least):
    """The places of parts that have the same shape as another, of at least so many words and signs."""
    groups = {}
    for path, lines in sources(folder):
        for number, name, body in parts("\n".join(lines)):
            sign = shape(body)
            if least <= len(sign.split()):
                groups.setdefault(sign, []).append(f"{path.relative_to(folder)}:{number}: {name}")
    for group in groups.values():
        if 1 < len(group):
            yield from (f"{place}   [{', '.join(other.split(': ')[1] for other in group if other != place)}]" for place in group)


def wide_functions(lines):
    """The lines of functions of more than seven parameters, whichever way they are laid out."""
    text = "\n".join(lines)
    for found in re.finditer(r"^\s*(pub )?fn \w+(<[^>]*>)?\(([^)]*)\)", text, re.M):
        parameters = [p for p in found.group(3).split(",") if p.strip()]
        if 7 < len(parameters):
            yield text[: found.start()].count("\n") + 1, found.group(0).split("(")[0].strip()


def places(folder, pattern):
    if pattern == "twins":
        yield from alike(folder, bodies, 12)
        return
    if pattern == "types":
        yield from alike(folder, declarations, 6)
        return
    for path, lines in sources(folder):
        name = path.relative_to(folder)
        if pattern is None:
            for number, line in wide_functions(lines):
                yield f"{name}:{number}: {line}"
            continue
        for number, line in enumerate(lines, 1):
            if not line.lstrip().startswith("//") and "ghost use" not in line and re.search(pattern, line):
                yield f"{name}:{number}: {line.strip()}"


def main():
    words = sys.argv[1:]
    folder = words.pop(0) if words and not words[0].isdigit() else "."
    for point, what, pattern in COUNTS:
        found = list(places(folder, pattern))
        if not words or point in words:
            print(f"{point}  {len(found):4}  {what}")
        if point in words:
            for place in found:
                print(f"          {place}")


main()
