#!/usr/bin/env python3
"""Wrong versions that the proofs must refuse, many at a time: the edits in crates/NAME/wrong/, and beside them those in
crates/NAME/must-fail/, each of which `rt ci` tries by itself.

    tests/wrong-versions.py [NAME..]        without names, every crate that has a folder wrong/

A crate is copied with those below it, and with what `rt check` left in their folders out/, to a temporary folder, and proved
there once. Where it left nothing, all are proved first, in another copy. Then edits of the bodies of different functions are
made together, and what they change is checked again.

An edit of bodies is refused if none of its functions is still proved and one of them has a goal of its own that fails: in its
own proof files, or left open by the prover's `search`. A function that only waits for another that is not proved is tried again
without it. An edit of anything else (a contract, a constant, a definition) is made alone, and is refused if a function's goal or
a named fact fails outside of the files edited. An edit after which a proof misses names of the code is bad: it is refused for
its shape, and may be right.

What is refused need not be wrong: a proof may not follow code of the same meaning. So an edit has to be read by its author.
"""
import concurrent.futures
import os
import pathlib
import re
import shutil
import subprocess
import sys
import tempfile

ROOT = pathlib.Path(__file__).resolve().parent.parent
FUNCTION = re.compile(r'^(?P<head>(?:pub )?(?:extern "C" )?fn (?P<name>\w+)\b.*?(?:^| )\{)(?P<body>\n.*?^\}\n)', re.M | re.S)
VERDICT = re.compile(r"^fn (\S+): (.*)$", re.M)
METHOD = re.compile(r"::[A-Z]\w*::\w+$")  # named after its type, one by derive too; an edit of one is made alone
CLOSURE = re.compile(r"(\w+(?:::\w+)*?)::fn::((?:[A-Z]\w*::)?\w+)::\S+")  # named after the function that has it, and what it is for
ERROR = re.compile(r"^(?:\./)?((?:src|specs|proofs)/\S+?):(\d+:\d+): error: (?:`([^`]+)`: )?(.*)$", re.M)
NOTE = re.compile(r"^note: (?:\./)?(src/\S+:\d+:\d+): it is not proved that .*?\(`([^`]+)`\)", re.M)
FOLLOWS = re.compile(r"\d+ declarations? that depends? on ")
MISSED = re.compile(r"has no `[^`]*` that can be named|has no field|is not in scope|is no name")


class Bad(Exception):
    pass


def parts(text):
    """A file without the bodies of its functions, and the bodies by name."""
    return FUNCTION.sub(lambda at: at["head"], text), {at["name"]: at["body"] for at in FUNCTION.finditer(text)}


def path_of(crate, file, name):
    """How the prover names a function of a file of src/."""
    modules = pathlib.PurePath(file).with_suffix("").parts[1:]
    return "::".join([crate, *(module for module in modules if module not in ("lib", "main")), name])


def owner(function):
    """The function whose body holds this one: a closure's is the function that has it, any other's is its own."""
    return CLOSURE.sub(r"\1::\2", function)


class Edit:
    """An edit as rt reads it: a `file:` line holds for the pairs of an `old:` and a `new:` line after it."""

    def __init__(self, path):
        self.crate, self.folder, self.name = path.parts[-3], path.parts[-2], f"{path.parts[-3]}/{path.stem}"
        self.changes, file, old = [], "", ""
        for line in path.read_text().split("\n"):
            if line.startswith("file: "):
                file = line[6:]
            elif line.startswith("old: "):
                old = line[5:]
            elif line.startswith("new:"):
                self.changes.append((file, old, line[4:].removeprefix(" ")))
                old = ""

    def make(self, sources):
        """self.texts: the files changed. self.bodies: the bodies changed, none if anything else is. self.functions: whose."""
        self.texts, self.bodies = {}, {}
        for file, old, new in self.changes:
            if file not in sources:
                raise Bad(f"{file} is no file of the crate's src/ or specs/")
            text = self.texts.get(file, sources[file])
            if not old or text.count(old) != 1:
                raise Bad(f"{file} does not hold its text exactly once")
            self.texts[file] = text.replace(old, new)
        if all(text == sources[file] for file, text in self.texts.items()):
            raise Bad("it changes nothing")
        if all(file.startswith("src/") and parts(text)[0] == parts(sources[file])[0] for file, text in self.texts.items()):
            self.bodies = {(file, name): body for file, text in self.texts.items() for name, body in parts(text)[1].items()
                           if body != parts(sources[file])[1][name]}
        self.functions = {path_of(self.crate, file, name) for file, name in self.bodies}

    def goes_with(self, others):
        """Whether it can be made together with the others: bodies of other functions than theirs."""
        return bool(self.bodies) and all(other.bodies and self.functions.isdisjoint(other.functions) for other in others)


class Crate:
    """A crate in a copy of it and those below it: proved once, and put back to that state before each run."""

    def __init__(self, source, copy, name):
        self.copy, self.name, self.folder, self.runs = copy, name, copy / "crates" / name, 0
        self.out, self.kept = self.folder / "out", copy / "kept"
        copied(source, copy, [name])
        self.sources = {str(file.relative_to(self.folder)): file.read_text()
                        for part in ("src", "specs") for file in (self.folder / part).rglob("*") if file.is_file()}
        status, told = self.check()
        if status != 0 or "\nlogic=proved " not in told:
            raise Bad(f"unchanged, the crate is not proved:\n{told[-2000:]}")
        there = {path_of(name, file, function) for file, text in self.sources.items() if file.startswith("src/")
                 for function in parts(text)[1]}
        named = VERDICT.findall(told)
        owners = {owner(function) for function, _ in named if CLOSURE.fullmatch(function)}
        proved_here = {function for function, verdict in named if verdict == "proved" and not CLOSURE.fullmatch(function)}
        if there != {function for function in proved_here if not METHOD.search(function)} or not owners <= proved_here:
            raise Bad("the functions found in src/ are not those that the prover names")
        shutil.copytree(self.out, self.kept)

    def check(self):
        self.runs += 1
        done = subprocess.run(["rt", "check", "--jobs", "2"], cwd=self.folder, stdin=subprocess.DEVNULL, stdout=subprocess.PIPE,
                              stderr=subprocess.STDOUT, text=True, errors="replace")
        return done.returncode, "\n" + done.stdout

    def changed(self, edits):
        """The files that the edits change, as they are with all of them."""
        if len(edits) == 1:
            return edits[0].texts
        bodies = {key: body for edit in edits for key, body in edit.bodies.items()}
        return {file: FUNCTION.sub(lambda at: at["head"] + bodies.get((file, at["name"]), at["body"]), self.sources[file])
                for file in {file for file, _ in bodies}}

    def run(self, edits):
        """What the prover says of the crate with the edits."""
        texts = self.changed(edits)
        shutil.rmtree(self.out)
        shutil.copytree(self.kept, self.out, copy_function=linked)
        for file, text in texts.items():
            (self.folder / file).write_text(text)
        answer = self.check()
        for file in texts:
            (self.folder / file).write_text(self.sources[file])
        return answer


def linked(one, other):
    """A check replaces what it keeps of a module, and changes none, so a link is enough."""
    return os.link(one, other) if str(one).endswith(".oantt") else shutil.copy2(one, other)


def with_those_below(names):
    """The lines of crates.txt for these crates and all below them."""
    lines = [line.split("#")[0].strip() for line in (ROOT / "crates.txt").read_text().split("\n")]
    lines, wanted = {line.split(":")[0].split()[0]: line for line in lines if line}, list(names)
    for crate in wanted:
        wanted += [other for other in lines[crate].split(":")[1].split() if other in lines and other not in wanted]
    return {crate: lines[crate] for crate in wanted}


def copied(source, copy, names):
    """Copies crates with all that rt keeps of them, and those below them with their libraries alone."""
    lines = with_those_below(names)
    for crate in lines:
        left_out = shutil.ignore_patterns("must-fail", "wrong", *([] if crate in names else ["incremental"]))
        shutil.copytree(source / "crates" / crate, copy / "crates" / crate, ignore=left_out)
    (copy / "crates.txt").write_text("".join(f"{line}\n" for line in lines.values()))


def proved(names, copy, jobs):
    """Where the crates are as rt check leaves them: here, or else in a copy in which they are proved now, lowest first."""
    lines = with_those_below(names)
    if all((ROOT / "crates" / crate / "out/incremental").is_dir() for crate in lines):
        return ROOT
    copied(ROOT, copy, list(lines))
    subprocess.run(["rt", "all", "check", "--jobs", str(jobs)], cwd=copy, stdin=subprocess.DEVNULL, stdout=subprocess.DEVNULL,
                   stderr=subprocess.DEVNULL)
    return copy


def failures(crate, told):
    """What fails by itself, in the order told: whose it is (None: no function's), its file, its place, its name (None: the
    proof misses a name, or puts its parts together as the code no longer asks)."""
    for found in re.finditer(f"{ERROR.pattern}|{VERDICT.pattern}", told, re.M):
        file, place, name, message, function, verdict = found.groups()
        if file and not FOLLOWS.match(message):
            own = re.fullmatch(r"proofs/(.+)/\w+\.antt", file)
            whose = owner("::".join([crate, *own[1].replace("+", "").split("/")])) if own else None
            lost = MISSED.search(message) or (own and name and name.endswith("_spec"))
            yield whose, file, f"{file}:{place}", None if lost else name
        elif function and "`search` did not prove " in verdict:
            goal = re.search("did not prove `([^`]+)`", verdict)[1]
            places = [note[1] for note in NOTE.finditer(told, 0, found.start()) if note[2] == goal]
            yield owner(function), None, places[-1] if places else function, goal


def judged(edit, status, told):
    """`refused ..`, or what is wrong with the edit; None if its functions only wait for others."""
    if status == 0:
        return "NOT REFUSED: the crate is still proved"
    if status != 1 or "\nlogic=not-proved" not in told:
        return f"BAD EDIT: it did not reach the prover (exit {status}):\n{told[-1000:]}"
    verdicts = dict(VERDICT.findall(told))
    for function in edit.functions:
        if verdicts.get(function, "proved") == "proved":
            return f"NOT REFUSED: {function} is still proved"
    failed = [(place, name) for whose, file, place, name in failures(edit.crate, told)
              if (whose in edit.functions if edit.bodies else name is None or file not in edit.texts)]
    for place, name in failed:
        if name is None:
            return f"BAD EDIT: the code has another shape than the proof at {place}, so nothing is known of the edit"
    if failed:
        return "refused at {} ({})".format(*failed[0])
    waits = edit.bodies and all("it calls" in verdicts[function] for function in edit.functions)
    return None if waits else "BAD EDIT: nothing fails that is not its own text"


def together(edits, apart):
    """The first edit, and those that can be made with it."""
    group = edits[:1]
    for edit in edits[1:]:
        if not apart & {edit, group[0]} and edit.goes_with(group):
            group.append(edit)
    return group


def tried(crate, edits):
    """Tries edits of a crate; what to say of each."""
    answers, left, apart = {}, [], set()
    for edit in edits:
        try:
            edit.make(crate.sources)
            left.append(edit)
        except Bad as wrong:
            answers[edit] = f"BAD EDIT: {wrong}"
    while left:
        group = together(left, apart)
        status, told = crate.run(group)
        found = {edit: judged(edit, status, told) for edit in group}
        if len(group) == 1:
            found[group[0]] = found[group[0]] or "BAD EDIT: its functions only wait for others"
        elif "\nlogic=" not in told or not any(found.values()):
            # One of them keeps the prover from the others.
            apart.update(group)
            continue
        answers.update((edit, answer) for edit, answer in found.items() if answer)
        left = [edit for edit in left if edit not in answers]
    return answers


def shares(edits):
    """A crate's edits in shares, each tried in a copy of its own: those of its code, and the others, which are made alone, by twenties."""
    code = [edit for edit in edits if all(file.startswith("src/") for file, _, _ in edit.changes)]
    others = [edit for edit in edits if edit not in code]
    return [share for share in [code, *(others[i:i + 20] for i in range(0, len(others), 20))] if share]


def edits_of(names):
    """The edits by crate."""
    edits = {}
    for wrong in sorted(ROOT.glob("crates/*/wrong")):
        if not names or wrong.parent.name in names:
            paths = sorted([*wrong.glob("*.edit"), *(wrong.parent / "must-fail").glob("*.edit")])
            edits[wrong.parent.name] = [Edit(path) for path in paths]
    return edits


def main():
    edits, runs, refused = edits_of(sys.argv[1:]), 0, {"wrong": 0, "must-fail": 0}
    jobs = int(os.environ.get("JOBS", min(os.cpu_count(), 2)))

    def work(source, name, share):
        with tempfile.TemporaryDirectory() as copy:
            try:
                crate = Crate(source, pathlib.Path(copy), name)
                return tried(crate, share), crate.runs
            except Bad as wrong:
                return {edit: f"NOT TRIED: {wrong}" for edit in share}, 1

    with tempfile.TemporaryDirectory() as whole, concurrent.futures.ThreadPoolExecutor(jobs) as pool:
        source = proved(list(edits), pathlib.Path(whole), jobs)
        # The largest shares begin.
        shared = sorted(((name, share) for name in edits for share in shares(edits[name])), key=lambda each: -len(each[1]))
        begun = [(name, pool.submit(work, source, name, share)) for name, share in shared]
        for name in edits:
            answers = {}
            for ended in [ended for other, ended in begun if other == name]:
                answers.update(ended.result()[0])
                runs += ended.result()[1]
            for edit in edits[name]:
                refused[edit.folder] += answers[edit].startswith("refused at ")
                print(f"wrong {edit.name}: {answers[edit]}", flush=True)
    total = sum(map(len, edits.values()))
    print(f"wrong versions: {sum(refused.values())} of {total} refused by {runs} runs of the prover, "
          f"{refused['wrong']} of wrong/ and {refused['must-fail']} of must-fail/")
    sys.exit(sum(refused.values()) != total or refused["wrong"] == 0)


if __name__ == "__main__":
    main()
