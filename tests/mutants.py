#!/usr/bin/env python3
"""Wrong versions of the operations that change the code's shape, beside the must-fail edits, which keep it.

Each is made in a copy of the crates, and the program `cases` or, for Closing, `hours`, for text and replies `texts`, is run over it, unproved,
by `rt try`. It has to end and to write something else than its file `stdout`; the first line that differs is printed.

    tests/mutants.py        JOBS says how many run at once, 2 if not said
"""
import concurrent.futures
import os
import pathlib
import queue
import shutil
import subprocess
import sys
import tempfile

# What is wrong, and the changes that make it so: a file, its text, the text in its stead.
MUTANTS = [
    ("the same list each time", [
        ("compile/src/lib.rt",
         "put_list(opened, list)",
         r'put_list(&Record::new(b"\x01\0\0\0\x0A\0\x01\0\0\0\0\0\x05\0\x05", Header { version: 1, ints: 1, bools: 0, clauses: 0, table: 11, rules: 15 }), list)'),
        ("compile/src/lib.rt", "use opening::record::Record;", "use opening::Header;\nuse opening::record::Record;")]),
    ("nothing written, the sizes right", [
        ("compile/src/lib.rt",
         "let k = put_list(opened, list);",
         "let mut elsewhere = [0; 16384];\n    let k = put_list(opened, &mut elsewhere);")]),
    ("the first comparison's clauses, of later ones the line of selectors alone", [
        ("compile/src/pieces.rt",
         "            let number = selectors + selector as u32;",
         "            if 0 < selector {\n                return at;\n            }\n            let number = selectors + selector as u32;")]),
    ("the selector left off a single-term comparison", [
        ("compile/src/pieces.rt",
         "Some(negated)",
         "if c.n == 1 { None } else { Some(negated) }")]),
    ("a step's 0 put a place further", [
        ("writing/src/axioms.rt",
         "        place = here.add_step(first + i, place);",
         "        let number = first + i;\n"
         "        let second = here.add(-(number as i32), place);\n"
         "        let end = here.add((number + 1) as i32, second);\n"
         "        here.add(0, end + 1);\n"
         "        place = end + 1;")]),
    ("one selector for a whole clause", [
        ("writing/src/lines.rt", "number += selectors_of(literal);", ""),
        ("rules/src/lib.rt", "after(c, next, c.selector + 1)", "after(c, next, c.selector)")]),
    ("tuples used below the least sum", [
        ("writing/src/comparisons.rt", "if t < 1 {", "if false {")]),
    ("place K written too", [
        ("compile/src/lib.rt",
         "let k = put_list(opened, list);",
         "let k = put_list(opened, list);\n                if k < list.len() {\n                    list[k] = 0;\n                }")]),
    ("the last clause of a row that does not hold", [
        ("decode/src/rows.rt", "    for at in number..end {", "    let mut last = number;\n    let mut fails = false;\n    for at in number..end {"),
        ("decode/src/rows.rt", "            return Err(at);", "            last = at;\n            fails = true;"),
        ("decode/src/rows.rt", "    Ok(end)", "    if fails {\n        return Err(last);\n    }\n    Ok(end)")]),
    ("the clauses tested before the bytes", [
        ("decode/src/lib.rt",
         "    if let Some(index) = first_bad_byte(model) {\n"
         "        return Err(Refusal::ByteWrong { index });\n"
         "    }\n"
         "    if let Some(number) = search_clauses(opened, model) {\n"
         "        return Err(Refusal::ClauseFails { number });\n"
         "    }\n",
         "    if let Some(number) = search_clauses(opened, model) {\n"
         "        return Err(Refusal::ClauseFails { number });\n"
         "    }\n"
         "    if let Some(index) = first_bad_byte(model) {\n"
         "        return Err(Refusal::ByteWrong { index });\n"
         "    }\n")]),
    ("the values written before the clauses are tested", [
        ("decode/src/lib.rt", "    write_values(opened, model, values);", ""),
        ("decode/src/lib.rt",
         "    check_model(opened, model)?;",
         "    write_values(opened, model, values);\n    check_model(opened, model)?;")]),
    ("a value outside its bounds told before a byte that is not 0 or 1", [
        ("judge/src/checks.rt",
         "    if let Some(index) = first_bad_byte(booleans) {\n"
         "        return Err(Refusal::ByteWrong { index });\n"
         "    }\n"
         "    if let Some(index) = first_outside(opened, values) {\n"
         "        return Err(Refusal::ValueOutside { index });\n"
         "    }\n",
         "    if let Some(index) = first_outside(opened, values) {\n"
         "        return Err(Refusal::ValueOutside { index });\n"
         "    }\n"
         "    if let Some(index) = first_bad_byte(booleans) {\n"
         "        return Err(Refusal::ByteWrong { index });\n"
         "    }\n")]),
    ("the model written before the clauses are tested", [
        ("image/src/lib.rt",
         "    checked(opened, measured.sizes, values, booleans, model.len())?;",
         "    if booleans.len() == opened.bools() && values.len() == opened.ints() && model.len() == measured.sizes.n {\n"
         "        put_model(opened, values, booleans, model);\n"
         "    }\n"
         "    checked(opened, measured.sizes, values, booleans, model.len())?;")]),
    ("the first byte of what is lent not looked at", [
        ("lent/src/lib.rt",
         "bytes.iter().position(|byte| *byte > 1)",
         "bytes.iter().enumerate().position(|(i, byte)| 0 < i && *byte > 1)")]),
    ("hours halved and rounded up", [
        ("closing/src/search.rt",
         "floor_div(range.lower + range.upper, 2)",
         "floor_div(range.lower + range.upper + 1, 2)")]),
    ("hours halved toward zero", [
        ("closing/src/search.rt",
         "floor_div(range.lower + range.upper, 2)",
         "(range.lower + range.upper) / 2")]),
    ("the question at the upper bound left out", [
        ("closing/src/search.rt",
         "        question: range.upper,",
         "        question: half(range),")]),
    ("a reply told to be wrong only where it answers a question", [
        ("closing/src/search.rt",
         "        hour = told(narrowed(left, question, *reply));",
         "        if 1 < *reply {\n"
         "            return Err(Refusal::ByteWrong { index: i });\n"
         "        }\n"
         "        hour = told(narrowed(left, question, *reply));"),
        ("closing/src/checks.rt",
         "    if let Some(index) = first_bad_byte(replies) {\n        return Err(Refusal::ByteWrong { index });\n    }\n",
         "")]),
    ("a number past clause M read", [
        ("replies/src/clauses.rt",
         "    if !room {\n        return Err(Bad { place: at });\n    }\n",
         "")]),
    ("the model's length told before a variable that is missing", [
        ("replies/src/models.rt",
         "    if let Some(variable) = least_not_once(text, n, heard.from, sought_from(n, heard.listed)) {",
         "    if model.len() != n as usize {\n"
         "        return Err(Refusal::LentWrong { wanted: n as usize });\n"
         "    }\n"
         "    if let Some(variable) = least_not_once(text, n, heard.from, sought_from(n, heard.listed)) {")]),
    ("the model written before each variable is known to be there once", [
        ("replies/src/models.rt",
         "    if let Some(variable) = least_not_once(text, n, heard.from, sought_from(n, heard.listed)) {",
         "    if model.len() == n as usize {\n"
         "        model.fill(0);\n"
         "        put_literals(text, n, heard.from, model);\n"
         "    }\n"
         "    if let Some(variable) = least_not_once(text, n, heard.from, sought_from(n, heard.listed)) {")]),
    ("'none' clears the model", [
        ("replies/src/models.rt",
         "        None => Ok(Reply::None),",
         "        None => {\n            model.fill(0);\n            Ok(Reply::None)\n        }")]),
    ("text written as far as there is room", [
        ("write_text/src/lib.rt",
         "    if out.len() < length {",
         "    if out.len() < length {\n        add_text(opened, measured.sizes, out);")]),
]

# Which program shows what a crate does wrong.
PROGRAMS = {"closing": "hours", "replies": "texts", "write_text": "texts"}


def changed(crates, changes):
    """Makes the changes; answers what stood in the files before, and whether each text stood there once."""
    before = {}
    for file, old, new in changes:
        path = crates / file
        text = path.read_text()
        before.setdefault(path, text)
        if text.count(old) != 1:
            return before, False
        path.write_text(text.replace(old, new))
    return before, True


def run(copy, program):
    """Whether the program wrote what is expected; if not, the line where it first differs, if it ran to its end."""
    folder = copy / "crates" / program
    done = subprocess.run(["rt", "try"], cwd=folder, stdin=subprocess.DEVNULL, capture_output=True)
    expected = (folder / "stdout").read_bytes()
    if done.returncode != 0 or b"\nrun=ended status=0 " not in b"\n" + done.stderr:
        return False, None
    if done.stdout == expected:
        return True, None
    same = 0
    while done.stdout[:same + 1] == expected[:same + 1]:
        same += 1
    return False, expected[:same].count(b"\n") + 1


def tried(copy, changes):
    before, made = changed(copy / "crates", changes)
    program = PROGRAMS.get(changes[0][0].split("/")[0], "cases")
    same, line = run(copy, program) if made else (True, None)
    for path, text in before.items():
        path.write_text(text)
    if not made:
        return "cannot be tried: a text does not stand once in its file"
    if same:
        return "NOT NOTICED"
    return f"differs at line {line} of {program}" if line else "did not run to its end"


def main():
    root = pathlib.Path(__file__).resolve().parent.parent
    jobs = int(os.environ.get("JOBS", min(os.cpu_count(), 2)))
    copies = queue.Queue()

    def in_a_copy(call, *words):
        copy = copies.get()
        try:
            return call(copy, *words)
        finally:
            copies.put(copy)

    with tempfile.TemporaryDirectory() as folder, concurrent.futures.ThreadPoolExecutor(jobs) as pool:
        for number in range(jobs):
            copy = pathlib.Path(folder) / str(number)
            shutil.copytree(root / "crates", copy / "crates", ignore=shutil.ignore_patterns("out"))
            shutil.copy(root / "crates.txt", copy)
            copies.put(copy)
        programs = ("cases", "hours", "texts")
        for program, (same, _) in zip(programs, pool.map(lambda it: in_a_copy(run, it), programs)):
            if not same:
                sys.exit(f"mutants: unchanged, the program {program} does not write what is expected")
        noticed = 0
        for (name, _), answer in zip(MUTANTS, pool.map(lambda it: in_a_copy(tried, it[1]), MUTANTS)):
            noticed += answer.startswith("differs")
            print(f"{name}: {answer}", flush=True)
    print(f"mutants: {noticed} of {len(MUTANTS)} noticed")
    sys.exit(noticed != len(MUTANTS))


if __name__ == "__main__":
    main()
