#!/usr/bin/env python3
"""The figures of docs/RECORD.md, held against the header and the programs: ranges, refusals, the picture of the bytes, cases.

    tests/record_page.py        after `cargo build --release` in rust/, with the example try_all
"""
import os
import pathlib
import re
import subprocess
import sys

ROOT = pathlib.Path(__file__).resolve().parent.parent
PAGE = (ROOT / "docs/RECORD.md").read_text()
BUILT = pathlib.Path(os.environ.get("CARGO_TARGET_DIR", ROOT / "rust/target")) / "release"
sys.path.insert(0, str(ROOT / "examples"))
sys.dont_write_bytecode = True
from write_record import at_most, record, yes  # noqa: E402, the page's own writer of records

FOUR = [(0, 1)] * 4
# A row of the page's first table, by how it begins; a record with the field at n; the refusal out of range, and the place.
FIELDS = [
    ("how many integer", lambda n: record([(0, 0)] * n, 0, []), 4, 5),
    ("how many Boolean", lambda n: record([], n, []), 4, 7),
    ("how many clauses", lambda n: record([], 0, [[]] * n), 4, 9),
    ("then for each integer variable: lower", lambda n: record([(n, 4095)], 0, []), 5, 11),
    ("then for each integer variable: lower", lambda n: record([(-4096, n)], 0, []), 5, 13),
    ("then for each clause", lambda n: record([], 1, [[yes(1)] * n]), 4, 11),
    ("of kind 0 and 1", lambda n: record([], 7, [[yes(n)]]), 6, 13),
    ("of kind 2", lambda n: record(FOUR, 0, [[at_most([(1, x) for x in range(n)], 9)]]), 4, 29),
    ("for each term", lambda n: record(FOUR, 0, [[at_most([(n, 0)], 9)]]), 7, 30),
    ("and after the terms", lambda n: record(FOUR, 0, [[at_most([(1, 0)], n)]]), 17, 33),
]


def fail(words):
    sys.exit(f"tests/record_page.py: {words}")


def board(command, text):
    """What a command of `board` prints for a text; the library's refusals go to standard error, where they are seen."""
    return subprocess.run([BUILT / "board", command, "/dev/stdin"], input=text.encode(), stdout=subprocess.PIPE, check=True).stdout


def rows(heading):
    """The rows of the tables in a section, each as its cells."""
    section = PAGE.split(f"\n## {heading}\n")[1].split("\n## ")[0]
    for line in section.splitlines():
        if line.startswith("| "):
            yield [cell.strip() for cell in line.strip("|").split(" | ")]


def refused(bytes_of_record):
    """The number and place with which a record is refused, or None."""
    told = subprocess.run([BUILT / "board", "text", "/dev/stdin"], input=bytes_of_record, capture_output=True)
    found = re.search(r"refusal (\d+): .* at byte (\d+) ", told.stderr.decode())
    if told.returncode not in (0, 1) or (told.returncode == 1 and not found):
        fail(f"board text ended with status {told.returncode}: {told.stderr.decode()}")
    return found and (int(found[1]), int(found[2]))


def compare_ranges():
    """The ends of each field's range are admitted, and what is next to them is refused at the field's place."""
    table = {cells[0]: cells[2] for cells in rows("The bytes")}
    for begin, with_field, number, place in FIELDS:
        words = next(said for field, said in table.items() if field.startswith(begin)).replace("1 to m", "1 to 7")
        least, greatest = (int(end.replace(",", "")) for end in re.match(r"(-?[\d,]+) to (-?[\d,]+)", words).groups())
        for n in [least, greatest]:
            if refused(with_field(n)):
                fail(f"{begin}: {n} is refused")
        for n in [least - 1, greatest + 1]:
            if n >= 0 or least < 0:
                if refused(with_field(n)) != (number, place):
                    fail(f"{begin}: {n} is answered with {refused(with_field(n))}, not {(number, place)}")
    return len(FIELDS)


def compare_refusals():
    """Every refusal of the header is on the page, and no other."""
    header = (ROOT / "include/basmuthar.h").read_text().split("THE REFUSALS")[1].split("m is how many")[0]
    promised = [int(number) for number in re.findall(r"^ \* {6,8}(\d+)  \w", header, re.M)]
    told = [int(cells[0]) for cells in rows("The refusals") if cells[0].isdigit()]
    if told != promised or len(told) < 16:
        fail(f"the refusals are {told}, in the header {promised}")
    return len(told)


def compare_picture():
    """The bytes of the picture are the record's, each line at the place that it names."""
    picture = PAGE.split(" place  bytes\n")[1].split("```")[0]
    drawn = b""
    for place, line in re.findall(r"^ {2,4}(\d+) (.*)$", picture, re.M):
        if int(place) != len(drawn):
            fail(f"the picture has place {place} after {len(drawn)} bytes")
        drawn += bytes.fromhex("".join(re.findall(r"(?<!\S)[0-9a-f]{2}(?!\S)", line[:36])))
    if drawn != board("record", (ROOT / "examples/small.board").read_text()):
        fail(f"the picture's bytes are not the record's: {drawn.hex(' ')}")
    return len(drawn)


def text_of(words):
    """A case's board as text: `x, y in 2..6; x + y ≤ 7`."""
    words = re.sub(r" \(.*\)", "", words.replace("≤", "<=").replace(", no clause", ""))
    numbers, *rules = words.split("; ")
    return "\n".join([re.sub(r"^(.*) in (-?\d+)\.\.(-?\d+)$", r"number \1 : \2 .. \3", numbers), *rules]) + "\n"


def compare_cases():
    """N, M, K and how many solutions there are, for each case that says so."""
    compared = 0
    for case, words, shown in rows("To follow docs/READING.md"):
        sizes = re.match(r"(\d+), (\d+), (\d+)", shown)
        if sizes:
            lines = board("cnf", text_of(words)).decode().splitlines()
            numbers = sum(len(line.split()) for line in lines[1:])
            if lines[0].split()[2:] + [str(numbers)] != list(sizes.groups()):
                fail(f"case {case} is said to have {sizes[0]}, and has {lines[0]} and {numbers} numbers")
            compared += 1
        solutions = re.search(r"(\w+) solutions", shown)
        if solutions:
            compare_solutions(case, words, {"three": "3"}.get(solutions[1], solutions[1]))
            compared += 1
    if compared < 7:
        fail(f"only {compared} figures of cases were found")
    return compared


def compare_solutions(case, words, said):
    file = ROOT / "target" / "case.record"
    file.write_bytes(board("record", text_of(words)))
    tried = subprocess.run([BUILT / "examples/try_all", file], stdout=subprocess.PIPE, text=True, check=True).stdout.split()
    if tried[:2] != ["SATISFIABLE", said]:
        fail(f"case {case} is said to have {said} solutions: {tried}")


print(f"docs/RECORD.md: {compare_ranges()} ranges are the library's, {compare_refusals()} refusals are the header's, {compare_picture()} bytes are the record's, "
      f"{compare_cases()} figures of cases are right.")
