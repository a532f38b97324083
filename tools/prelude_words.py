#!/usr/bin/env python3
"""Takes the library's operators from the library itself, and not by way of definitions' Tools: rt ci wants it so.

    tools/prelude_words.py        in every .antt and .rt file below crates/
"""
import pathlib
import re

OPERATORS = set("""if◌then◌else◌ ◌%◌ ◌&&◌ ◌*ℤ◌ ◌*◌ ◌++◌ ◌+ℤ◌ ◌+◌ ◌-ℤ◌ ◌-◌ ◌/◌ ◌<ℤ◌ ◌<◌ ◌==◌ ◌^◌ ◌||◌ ◌↔◌ ◌∷◌ ◌≡◌ ◌≢◌ ◌≤ℤ◌ ◌≤◌ ◌⊎◌""".split())
TOOLS = re.compile(r"^( *)((?:pub )?(?:ghost )?use )Rattle\.definitions\.specs\.Tools\.\{([^}]*)\}(;?)\n", re.M)
PRELUDE = re.compile(r"^( *(?:ghost )?use Rattle\.std\.specs\.Prelude\.\{)([^}]*)(\};?\n)", re.M)


def words(text):
    return [it.strip() for it in text.split(",") if it.strip()]


for file in sorted(pathlib.Path(__file__).resolve().parent.parent.glob("crates/*/*/**/*")):
    if file.suffix not in (".antt", ".rt") or "/out/" in str(file):
        continue
    text = file.read_text()
    moved = []

    def taken(at):
        names = words(at[3])
        moved.extend(it for it in names if it in OPERATORS)
        rest = [it for it in names if it not in OPERATORS]
        return f"{at[1]}{at[2]}Rattle.definitions.specs.Tools.{{{', '.join(rest)}}}{at[4]}\n" if rest else ""

    first = TOOLS.search(text)
    new = TOOLS.sub(taken, text)
    if not moved:
        continue
    there = PRELUDE.search(new)
    if there:
        names = words(there[2])
        names += [it for it in moved if it not in names]
        new = new[:there.start()] + there[1] + ", ".join(names) + there[3] + new[there.end():]
    else:
        line = f"{first[1]}{first[2]}Rattle.std.specs.Prelude.{{{', '.join(dict.fromkeys(moved))}}}{first[4]}\n"
        new = new[:first.start()] + line + new[first.start():]
    file.write_text(new)
    print(file)
