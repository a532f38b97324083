#!/usr/bin/env python3
"""Says of each edit in crates/*/must-fail/ and crates/*/wrong/ where an `old:` does not stand exactly once in its file.

    tests/edits-fit.py [NAME..]        without names, every crate
"""
import pathlib
import sys

ROOT = pathlib.Path(__file__).resolve().parent.parent


def misfits(path):
    """What is wrong with an edit, as rt reads it: each pair applies to what the earlier ones made."""
    folder, texts, file, old = path.parent.parent, {}, "", None
    for line in path.read_text().split("\n"):
        if line.startswith("file: "):
            file = line[6:]
            if file not in texts:
                texts[file] = (folder / file).read_text() if (folder / file).is_file() else None
            if texts[file] is None:
                yield f"there is no {file}"
        elif line.startswith("old: "):
            old = line[5:]
        elif line.startswith("new:") and texts.get(file) is not None:
            new, times = line[4:].removeprefix(" "), texts[file].count(old) if old else 0
            if times != 1:
                yield f"{file} has {times} times: {old}"
            elif old == new:
                yield f"{file}: nothing is changed: {old}"
            else:
                texts[file] = texts[file].replace(old, new)
            old = None
    if not file:
        yield "it names no file"


def main():
    count, wrong = 0, 0
    for path in sorted(ROOT.glob("crates/*/must-fail/*.edit")) + sorted(ROOT.glob("crates/*/wrong/*.edit")):
        crate, folder, name = path.parts[-3:]
        if len(sys.argv) > 1 and crate not in sys.argv[1:]:
            continue
        count += 1
        found = list(misfits(path))
        wrong += bool(found)
        for misfit in found:
            print(f"{crate}/{folder}/{name}: {misfit}")
    print(f"edits: {count}, and {wrong} do not fit")
    sys.exit(wrong != 0)


if __name__ == "__main__":
    main()
