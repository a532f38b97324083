#!/usr/bin/env python3
"""Lists the places of docs/DESIGN-PASS.md's points in crates/*/src, by what stands in the text of the code.

    tools/places.py [--list] [ROOT]         a line a point with its count; with --list, each place below it
"""
import collections
import pathlib
import re
import sys

LISTED = "--list" in sys.argv
ROOT = pathlib.Path(next((a for a in sys.argv[1:] if not a.startswith("--")), pathlib.Path(__file__).parent.parent))
FILES = {str(f.relative_to(ROOT / "crates")): f.read_text() for f in sorted(ROOT.glob("crates/*/src/**/*.rt"))}
CODE = {name: "\n".join(re.sub(r"//.*|^\s*(requires|ensures|ghost use) .*", "", line) for line in text.split("\n")) for name, text in FILES.items()}
FN = re.compile(r"^ *(?:pub )?(?:extern \"C\" )?fn (\w+)(?:<[^(]*>)?\((.*?)\)(?: -> ([^\n{]+?))?\s*(?:\{|\n((?:\s+(?:requires|ensures)\b[^\n]*\n)*))", re.M | re.S)


def lines(pattern):
    """Each line of code that has the pattern, as file:line: text."""
    found = []
    for name, text in CODE.items():
        for at in re.finditer(pattern, text, re.M):
            number = text.count("\n", 0, at.start()) + 1
            found.append(f"{name}:{number}: {' '.join(at[0].split())}")
    return found


def functions():
    for name, text in FILES.items():
        for at in FN.finditer(text):
            yield name.split("/")[0] + "::" + at[1], at[2], at[3] or "", at[4] or ""


def enums():
    """Enums with a case that carries a value and one that says that there is none, or why."""
    found = []
    for name, text in CODE.items():
        for at in re.finditer(r"^(?:pub )?enum (\w+) \{\n(.*?)^\}", text, re.M | re.S):
            cases = re.findall(r"^    (\w+)(.)", at[2], re.M)
            said_no = [c for c, _ in cases if c in ("Refused", "Unsized", "Bad", "Missing", "Nothing", "None", "End", "Fails")]
            if said_no and len(cases) - len(said_no) >= 1:
                found.append(f"{name}: {at[1]} of {', '.join(c for c, _ in cases)}")
    return found


def facts(least):
    """Conjuncts of `requires` that stand in so many contracts of one or of several crates."""
    where = collections.defaultdict(list)
    for name, _, _, clauses in functions():
        for fact in re.findall(r"requires(?: \w+)? \{ (.*?) \}\s*$", clauses, re.M):
            for part in set(re.split(r" × ", fact)):
                where[part.strip().strip("()")].append(name)
    return [f"{len(at)}: {fact}" for fact, at in sorted(where.items(), key=lambda x: -len(x[1])) if len(at) >= least]


def together(least):
    """Pairs of parameters, by name and type, that so many functions have."""
    where = collections.Counter()
    for name, parameters, _, _ in functions():
        if re.match(r"basmuthar", name):
            continue
        said = [" ".join(p.split()) for p in parameters.split(",") if ":" in p]
        where.update((a, b) for i, a in enumerate(said) for b in said[i + 1:])
    return [f"{n}: {a}, {b}" for (a, b), n in where.most_common() if n >= least]


POINTS = [
    ("1a. own enums of the shape of Option or Result", enums()),
    ("1b. bool fields and parameters", lines(r"^\s*(?:pub )?\w+: bool\b|\w+: bool(?=[,)])")),
    ("1c. numbers for kinds", lines(r"^.*\b(?:kind|version)\b (?:==|!=|<) \d.*$|^const \w+: u32 = \d;$")),
    ("3a. while loops", lines(r"^\s*while .*$")),
    ("3b. loop", lines(r"^.*\bloop \{$")),
    ("4. functions that only turn one type into another", lines(r"fn (?:\w+_of|of_\w+|\w+_written|magnitude|bit|without_sign|is_accepted|put_number|put_byte)(?=[(<])")),
    ("5a. facts in three or more contracts", facts(3)),
    ("5b. pairs of parameters in six or more functions", together(6)),
    ("6. arrays of a fixed length", lines(r"\[[^\[\]\n]*; \w+\]")),
    ("7. dyn, function pointers, Fn", lines(r"\bdyn \w+|impl Fn\w*|: fn\(")),
    ("8a. proofs that walk the code", [str(f.relative_to(ROOT / "crates")) for f in sorted(ROOT.glob("crates/*/proofs/**/Proof.antt"))]),
    ("8b. files of answers and invariants", [str(f.relative_to(ROOT / "crates")) for n in ("Answers", "Invariants") for f in sorted(ROOT.glob(f"crates/*/proofs/**/{n}.antt")) if f.parent.name != "proofs"]),
]

for point, places in POINTS:
    print(f"{point}: {len(places)}")
    if LISTED:
        print("".join(f"    {place}\n" for place in places), end="")
