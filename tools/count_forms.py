#!/usr/bin/env python3
"""Counts the older forms in src/, by point of docs/DESIGN-PASS.md.

    python3 tools/count_forms.py            this checkout
    python3 tools/count_forms.py COMMIT     that commit
    python3 tools/count_forms.py -v [..]    lists the lines too

It goes by text: each pattern finds the lines that may be such a place. Which of them are, docs/DESIGN-PASS.md says.
"""
import collections
import re
import subprocess
import sys

PATTERNS = {
    "1a a flag in a struct": r"^\s*(pub(\(crate\))? )?\w+: bool,$",
    "1b a number for a kind, a refusal or a state": r"\b(number|kind|refusal|status|tag|class): u(8|16|32)\b",
    "1c a number that stands for none": r"\bconst N(ONE|O_\w+|OT_\w+): u(8|16|32|size)\b|    \w+\.len\(\)$",
    "1d an Ok, Err, Some or None handed on by an arm": r"=> (return )?(Ok|Err|Some|None)\b|(Ok|Some)\((\w+)\) => \4,|\.is_err\(\)|=> unreachable",
    "3a a loop over a range": r"\bfor \w+ in [^{]*\.\.|\bwhile \w+ [<>!]=? ",
    "3b a loop over numbered items": r"\bfor \(\w+, \w+\) in .*\.enumerate\(\)",
    "4a equality or order by hand": r"\bfn (is|is_at|is_corner|eq|cmp|same\w*|reaches)\b|\.x == .*\.x\b|\.record == .*\.record\b",
    "4b a conversion by hand": r"\bfn (of|from_bits|known|reading|code_of|point_of|point_at|bare|accepted|refused|fraction_text)\b",
    "4c printing by hand": r"\bfn (line|\w+_line|\w+_lines|\w+_text|layer_name|listing)\b.*(heap|->)|\bfn \w+_line\(",
    "4d a constant record written out": r"\bconst (NO_POINT|BLANK|CLEARED): ",
    "6a a large array of fixed length": r"[^]\[]+; ?(1024|16_?384|MOST_\w+)\]",
    "6b a length or a count beside a buffer": r"\b(count|length|len): usize\b",
    "7 steps by number, tables of functions": r"\bdyn |\bfn\(|\[fn\b|\bstep: u",
}

FACTS = r"\b(AllInLimits|Under|Numbered|Ready|Placed|Planned|PointsBelow|Named|Sized)\b|\w+\.slot < 4|\bslot < 4"

GROUPS = [
    ("points", "readings", "tets"),
    ("x", "y", "z"),
    ("points", "tets"),
    ("points", "tet"),
    ("used", "dropped"),
    ("used", "shell"),
    ("a", "b", "c", "d"),
]


def sources(commit):
    """The path and the text of each source file."""
    if commit is None:
        names = subprocess.check_output(["git", "ls-files", "-co", "--exclude-standard", "crates"], text=True).split()
        for name in sorted(names):
            if "/src/" in name and name.endswith(".rt"):
                try:
                    yield name, open(name).read()
                except FileNotFoundError:
                    pass
        return
    names = subprocess.check_output(["git", "ls-tree", "-r", "--name-only", commit, "crates"], text=True).split()
    for name in names:
        if "/src/" in name and name.endswith(".rt"):
            yield name, subprocess.check_output(["git", "show", f"{commit}:{name}"], text=True)


def functions(text):
    """Each function's name, parameters and clauses."""
    for m in re.finditer(r"\bfn (\w+)(?:<[^(]*>)?\(", text):
        depth, i = 1, m.end()
        while depth and i < len(text):
            depth += {"(": 1, ")": -1}.get(text[i], 0)
            i += 1
        head = text[i:].split("\n{", 1)[0].split("\n    {\n", 1)[0].split(" {\n", 1)[0]
        yield m.group(1), re.findall(r"(\w+): ", text[m.end():i]), head


def main():
    args = [a for a in sys.argv[1:] if a != "-v"]
    commit = args[0] if args else None
    found = collections.defaultdict(list)
    facts = collections.defaultdict(set)
    bodies = collections.defaultdict(list)
    for name, text in sources(commit):
        for number, line in enumerate(text.splitlines(), 1):
            code = line.split("//")[0]
            for label, pattern in PATTERNS.items():
                if re.search(pattern, code):
                    found[label].append(f"{name}:{number}: {line.strip()}")
        for function, params, head in functions(text):
            for clause in re.findall(r"requires (?:\w+ )?\{(.*)\}", head):
                for fact in {m.group(0) for m in re.finditer(FACTS, clause)}:
                    facts[re.sub(r"\w+\.slot", "slot", fact)].add(f"{name}: {function}")
            for group in GROUPS:
                if all(p in params for p in group):
                    found["5b parameters together: " + ", ".join(group)].append(f"{name}: {function}")
            bodies[function].append(name)
    for fact, places in facts.items():
        if len(places) >= 3:
            found[f"5a required of callers: {fact}"] = sorted(places)
    for function, names in bodies.items():
        kept = sorted(set(n for n in names if "/cases/" not in n))
        if len(kept) > 1 and function not in ("new", "main", "number", "fmt", "lift", "admits", "class", "decode"):
            found["2 a function's name in two files"].append(function + ": " + ", ".join(kept))
    for label in sorted(found):
        print(f"{len(found[label]):4}  {label}")
        if "-v" in sys.argv:
            for place in found[label]:
                print("        " + place)


main()
