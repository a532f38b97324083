#!/usr/bin/env python3
"""The commands of the README and of the pages for those who link the library, run as they stand, and their programs, which have to be
the files that they name.

A line that begins with "$ " is run in the project's folder and has to succeed; where lines follow it, they have to be what it
prints. The gate itself, .ci/run, is not run from here: it runs this. docs/BOARDS.md is run by rust/tests/program/documents.rs.
"""
import os
import pathlib
import re
import subprocess
import sys

ROOT = pathlib.Path(__file__).resolve().parent.parent
PAGES = ["README.md", "docs/RECORD.md", "docs/LIMITS.md"]
NOT_RUN = {"bash .ci/run"}

# What a command needs that it does not build itself: the words by which it is known, the package, and a test that it is there.
LINKED = "echo 'int main(void) { return 0; }' | cc -x c - -o /dev/null -lcadical"
NEEDED = [
    (r"-lcadical|ipasir|round_trip", "libcadical-dev", LINKED),
    (r"(^|\| )cadical |\.drat$", "cadical", "command -v cadical"),
    (r"pkg-config", "pkgconf", "command -v pkg-config"),
    (r"^make |target/installed", "make", "command -v make"),
]

# `board` is called by its name, as docs/BOARDS.md says how.
BUILT = pathlib.Path(os.environ.get("CARGO_TARGET_DIR", ROOT / "rust/target")) / "release"
SURROUNDINGS = {**os.environ, "PATH": f"{BUILT}:{os.environ['PATH']}"}


def fail(words):
    sys.exit(f"tests/readme.py: {words}")


def blocks(text, language):
    """The blocks of a language, each with the text before it."""
    for block in re.finditer(rf"^```{language}\n(.*?)^```$", text, re.M | re.S):
        yield text[:block.start()], block[1]


def commands(block):
    """The commands of a console block, each with the lines that it is said to print."""
    for part in re.split(r"^\$ ", block, flags=re.M)[1:]:
        command, _, shown = part.partition("\n")
        yield command, shown


def shell(command):
    return subprocess.run(["bash", "-c", command], cwd=ROOT, stdout=subprocess.PIPE, text=True, env=SURROUNDINGS)


def succeeds(command):
    return subprocess.run(["bash", "-c", command], stdout=subprocess.DEVNULL, stderr=subprocess.DEVNULL).returncode == 0


def lacks(command, known={}):
    """The packages that a command needs, and that are missing and cannot be installed."""
    missing = []
    for words, package, test in NEEDED:
        if re.search(words, command):
            if package not in known:
                known[package] = succeeds(test) or (succeeds(f"apt-get update && apt-get install -y {package}") and succeeds(test))
            if not known[package]:
                missing.append(package)
    return missing


def run(page, command, shown):
    done = shell(command)
    if done.returncode != 0:
        fail(f"{page}: `{command}` ended with status {done.returncode}")
    if shown and done.stdout != shown:
        fail(f"`{command}` printed\n{done.stdout}where {page} has\n{shown}")


def run_page(page, text):
    """How many commands of a page ran."""
    ran = 0
    for _, block in blocks(text, "console"):
        for command, shown in commands(block):
            missing = lacks(command)
            if missing:
                print(f"{page}: not run, since {', '.join(missing)} is missing and could not be installed: {command}")
            elif command not in NOT_RUN:
                run(page, command, shown)
                ran += 1
    return ran


def compare_programs(page, text):
    """How many programs a page shows; each has to be the file that is named before it."""
    programs = 0
    for language in ["c", "rust", "python"]:
        for before, program in blocks(text, language):
            named = re.findall(r"`([^`\n]+)`:$", before.strip())[-1]
            if (ROOT / named).read_text() != program:
                fail(f"{page}: the program there is not that of {named}")
            programs += 1
    return programs


ran = programs = 0
for page in PAGES:
    text = (ROOT / page).read_text()
    on_page = run_page(page, text)
    if on_page < 3:
        fail(f"only {on_page} commands were found in {page}, or could be run")
    ran += on_page
    programs += compare_programs(page, text)
if ran < 20 or programs < 3:
    fail(f"only {ran} commands and {programs} programs were found")
print(f"{', '.join(PAGES)}: {ran} commands ran, {programs} programs are the files that they are said to be.")
