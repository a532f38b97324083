#!/usr/bin/env python3
"""Wrong definitions that the theorems must refuse by themselves.

    tests/wrong-definitions.py        best after `rt check` or `rt ci`, whose kept work it begins with

A copy of the repository, in a temporary folder, keeps of crates `laws` and `demands` just what the third demand's theorems
(demands, Pairing) and those of text and replies (Pinned) rest on, and nothing of the tables. As it stands it has to be proved.
Then each edit changes crate `definitions` in a copy of that, and the theorems are proved again over the wrong definition: one has
to fail, and the first that does is printed.
"""
import concurrent.futures
import os
import pathlib
import re
import shutil
import subprocess
import sys
import tempfile

EDITS = [
    ("the rule below L taken away", "Encoding.antt",
     "    else lead ∷ []",
     "    else map (λ bs. lead ++ zip_with sharp q.terms bs) (tuples_of of q)"),
    ("the bound at least less 1 left out", "Encoding.antt",
     "lo = (term_bounds of t).lo -ℤ pos 1; hi",
     "lo = (term_bounds of t).lo; hi"),
    ("the greatest true c read", "Meaning.antt",
     "least_true p otherwise (c ∷ cs) = if p c then c else least_true p otherwise cs",
     "least_true p otherwise (c ∷ cs) = least_true p (if p c then c else otherwise) cs"),
    ("one selector for a whole clause", "Encoding.antt",
     "line (j ∷ js) (at_most q ∷ C) = plus j ∷ line js C",
     "line (j ∷ js) (at_most q ∷ C) = plus j ∷ line (j ∷ js) C"),
    ("Plain with one true selector only", "Meaning.antt",
     "truth B a (selector j) = compares a (selection B j)",
     "truth B a (selector j) = compares a (selection B j) && not (any (λ i. compares a (selection B i)) (count_up 0 j))"),
    ("Plain that lets a comparison hold without its selector", "Meaning.antt",
     "All (λ j. T (in_model B model (selector j)) ↔ T (compares a (selection B j)))",
     "All (λ j. T (in_model B model (selector j)) → T (compares a (selection B j)))"),
    ("good text with numbers beyond N", "Texts.antt",
     "  pub known : All (λ n. nat_abs n ≤ N) ns",
     "  pub known : All (λ n. nat_abs n ≤ most) ns"),
    ("a good reply with 0 among its literals", "Texts.antt",
     "  pub literals : All (λ n. (1 ≤ nat_abs n) × (nat_abs n ≤ N)) ns",
     "  pub literals : All (λ n. (0 ≤ nat_abs n) × (nat_abs n ≤ N)) ns"),
    ("18 at the last byte of a number beyond N", "TextReading.antt",
     "(need 18 p.start (leb",
     "(need 18 at (leb"),
]
CRATES = {"definitions": "", "laws": " definitions", "demands": " definitions laws"}
# What is said of a text that cannot be read: nothing is known then of the theorem in which it stands.
UNREAD = re.compile(r"is not in scope|has no |is no name|operand is missing|expected the end|cannot continue")


def rests_on(crates, crate, module, kept):
    """Adds the module, and all that it uses of laws and demands, to what is kept."""
    if (crate, module) in kept:
        return
    kept.add((crate, module))
    text = (crates / crate / "specs" / f"{module}.antt").read_text()
    for other, used in re.findall(r"^(?:pub )?use Rattle\.(laws|demands)\.specs\.(\w+)", text, re.M):
        rests_on(crates, other, used, kept)


def prune(crates):
    for table in ("Examples", "TextExamples"):
        (crates / f"definitions/specs/{table}.antt").unlink()
        (crates / f"definitions/proofs/{table}.antt").unlink()
    kept = set()
    for theorems in ("Pairing", "Pinned"):
        rests_on(crates, "demands", theorems, kept)
    for crate in ("laws", "demands"):
        for file in (crates / crate / "specs").glob("*.antt"):
            if file.stem != "Lib" and (crate, file.stem) not in kept:
                file.unlink()
    for lib in crates.glob("*/*/Lib.antt"):
        there = [line for line in lib.read_text().splitlines() if (lib.parent / f"{line.split()[-1]}.antt").exists()]
        lib.write_text("".join(f"{line}\n" for line in there))
    (crates.parent / "crates.txt").write_text("".join(f"{name}:{below}\n" for name, below in CRATES.items()))


def prove(copy):
    done = subprocess.run(["rt", "check"], cwd=copy / "crates/demands", stdin=subprocess.DEVNULL, stdout=subprocess.PIPE,
                          stderr=subprocess.STDOUT, text=True, errors="replace")
    return done.returncode, done.stdout


def first_failure(copy, told):
    """The fact that the prover refuses first, if nothing but facts of laws and demands fails."""
    facts = []
    for file, name, message in re.findall(r"^(?:so far: )?(\S+?\.antt):\d+:\d+: error: (?:`([^`]+)`: )?(.*)$", told, re.M):
        crates = [crate for crate in CRATES if (copy / "crates" / crate / file).is_file()]
        if "definitions" in crates or UNREAD.search(re.sub(r"`[^`]*`", "", message)):
            return None
        facts.append(f"{' or '.join(crates)}, {pathlib.PurePath(file).stem}: {name}" if name else None)
    return facts[0] if facts else None


def tried(base, folder, name, file, old, new):
    copy = folder / re.sub(r"\W+", "-", name)
    shutil.copytree(base, copy)
    try:
        edited = copy / "crates/definitions/specs" / file
        text = edited.read_text()
        if text.count(old) != 1:
            return f"cannot be tried: {file} does not hold its text once"
        edited.write_text(text.replace(old, new))
        status, told = prove(copy)
        failed = first_failure(copy, told) if status == 1 else None
    finally:
        shutil.rmtree(copy)
    if status == 0:
        return "NOT REFUSED"
    return f"refused at {failed}" if failed else "failed for another reason:\n" + told[-2000:]


def main():
    root = pathlib.Path(__file__).resolve().parent.parent
    refused = 0
    with tempfile.TemporaryDirectory(prefix="wrong-definitions-") as made:
        folder = pathlib.Path(made)
        base = folder / "base"
        for crate in CRATES:
            shutil.copytree(root / "crates" / crate, base / "crates" / crate, ignore=shutil.ignore_patterns("must-fail", "wrong"))
        prune(base / "crates")
        status, told = prove(base)
        if status != 0:
            sys.exit(f"wrong definitions: unchanged, the theorems are not proved:\n{told[-2000:]}")
        with concurrent.futures.ThreadPoolExecutor(int(os.environ.get("RT_JOBS", min(os.cpu_count(), 2)))) as pool:
            answers = [pool.submit(tried, base, folder, *edit) for edit in EDITS]
            for edit, answer in zip(EDITS, answers):
                refused += answer.result().startswith("refused at")
                print(f"{edit[0]}: {answer.result()}", flush=True)
    print(f"wrong definitions: {refused} of {len(EDITS)} refused")
    sys.exit(refused != len(EDITS))


if __name__ == "__main__":
    main()
