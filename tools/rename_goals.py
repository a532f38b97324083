#!/usr/bin/env python3
"""Gives the proofs of a crate's functions today's names of goals, places and steps.

usage: tools/rename_goals.py CRATE NAMES      NAMES: the names.json of `rt check --generated FOLDER --old-names` in the crate

Only proofs/**/Proof.antt is written. A goal is found by its place in `tie.spec`; a place and a step by the older name.
"""

import json
import os
import re
import sys


def plain(name):
    return name.replace("_", "-")


def goals(text):
    """label -> (old need), in the order of tie.spec, and the text of that list"""
    typed = dict(re.findall(r"(?m)^([^\s:]+) : tie\.Need-([^\s]+)", text))
    m = re.search(r"tie\.spec\b(.*?)\)\s*\Z", text, re.S)
    listed = m.group(1).split() if m else []
    return typed, [w for w in listed if w in typed]


def short(label):
    label = plain(label)
    for a, b in (("overflow-", ""), ("slice-bounds-", "part-"), ("nonzero-", "")):
        if label.startswith(a):
            label = b + label[len(a):]
    return label


def main():
    crate, names = sys.argv[1], json.load(open(sys.argv[2]))
    root = f"crates/{crate}/proofs"
    for folder, _, found in sorted(os.walk(root)):
        if "Proof.antt" not in found:
            continue
        path = os.path.join(folder, "Proof.antt")
        stem = os.path.relpath(folder, root).replace("/", ".")
        entry = names.get(f"Rattle-{crate}-proofs.{stem}.Lts")
        if entry is None:
            print(f"{path}: no names")
            continue
        text = open(path, encoding="utf-8").read()
        text, said = turned(text, entry, stem.split(".")[-1])
        for line in said:
            print(f"{path}: {line}")
        open(path, "w", encoding="utf-8").write(text)


def turned(text, entry, function):
    said = []
    typed, listed = goals(text)
    needs = entry["needs"]
    rename = {}
    if len(listed) == len(needs):
        for label, (old, new) in zip(listed, needs):
            rename[typed[label]] = new
            if short(typed[label]) != short(old):
                said.append(f"goal {typed[label]} taken for {old} = {new}")
    else:
        said.append(f"{len(listed)} goals stand, {len(needs)} are asked")
        by = {}
        for old, new in needs:
            by.setdefault(short(old), new)
        for label in listed:
            key = short(typed[label])
            if key in by:
                rename[typed[label]] = by[key]
            else:
                said.append(f"goal {typed[label]} is not asked")
        for key, new in by.items():
            if key not in [short(typed[l]) for l in listed]:
                said.append(f"goal {new} is new")
    text = re.sub(r"tie\.Need-([^\s)]+)", lambda m: "tie.Need-" + rename.get(m.group(1), m.group(1)), text)

    places, steps = {}, {}
    for (old, parent, step, callee, more), new in zip(entry["places"], entry["places_by_name"]):
        places.setdefault(plain(old), new)
        a, b = step
        if a and a != b:
            steps.setdefault(plain(a), []).append(b)
        elif a:
            steps.setdefault(plain(a), []).append(a)
    text = re.sub(r"tie\.((?:At|In|After|Then|Else)[^\s)]*)", lambda m: "tie." + places.get(plain(m.group(1)), m.group(1)), text)
    arms = {}
    for arm in entry["arms"]:
        for field, old, path in (arm[2] if arm else []):
            if path:
                arms.setdefault((plain(old), ".".join(path)), []).append(f"{arm[0]}.{field}")
    for loop in entry["loops"]:
        old, new = loop[0]
        steps.setdefault(plain(old), []).append(new)
        steps.setdefault(plain(old) + "-test", []).append(new + "-test")
        for word in ("invariant", "decreases"):
            text = re.sub(rf"tie\.{word}-{re.escape(plain(old))}(?![\w-])", f"tie.{word}-{new}", text)

    # a chain of fields: `.before` and fields of values stay; a step gets its name
    def arm_of(m):
        found = sorted(set(arms.get((plain(m.group(1)), m.group(2)), [])))
        if len(found) > 1:
            said.append(f"{m.group(0)} may be {', '.join(found)}")
        return "." + found[0] if found else m.group(0)

    def step(m):
        word = m.group(1)
        behind = m.string[m.end():m.end() + 7]
        if plain(word) in steps:
            bound = all(re.fullmatch(re.escape(t) + r"", t) and re.sub(r"-\d+$", "", t) == word for t in steps[plain(word)])
            if bound and not behind.startswith(".given") and "-" not in word:
                return m.group(0)
            to = sorted(set(steps[plain(word)]))
            if len(to) > 1:
                said.append(f"step {word} may be {', '.join(to)}")
            return "." + to[0]
        return m.group(0)

    # what a `&mut` argument holds after a call: by the argument's name, and no longer by its place
    callees = {new_step: callee for (_, _, (_, new_step), callee, _) in entry["places"] if callee}

    def argument(m):
        index = m.group(3).count(".1")
        by_step = callees.get(m.group(1))
        named = [by_step] if by_step else sorted(set(callees.values()))
        found = sorted({entry["params"][c][index] for c in named if c in entry["params"] and index < len(entry["params"][c])})
        if len(found) != 1:
            said.append(f"{m.group(0)} may be {', '.join(found)}")
        return f"{m.group(1)}.{m.group(2)}.{found[0]}" if found else m.group(0)

    lines = []
    for line in text.split("\n"):
        if not line.startswith("use "):
            line = re.sub(r"(?<=[\w)'₀-₉])(?:\.before)+\.(?=(?!before\b)[a-z])", ".", line)
            line = re.sub(r"(?<=[\w)'₀-₉])\.([A-Za-z][\w-]*)\.(given(?:\.[01])+|ensures)(?![\w.]*\w)", arm_of, line)
            line = re.sub(r"(?<=[\w)'₀-₉])\.([A-Za-z][\w-]*)\.(given(?:\.[01])+)", arm_of, line)
            line = re.sub(r"(?<=[\w)'₀-₉])\.([A-Za-z][\w-]*)", step, line)
            line = re.sub(r"([\w'-]+)\.(new|auto|last)((?:\.1)*)\.0(?![\w.]*\.before)", argument, line)
            line = re.sub(r"(?<![\w.-])tie\.(Need-|At|In|After|Then|Else)", r"tie.\1", line)
        lines.append(line)
    text = "\n".join(lines)
    old = plain(function) + "-spec"
    text = re.sub(rf"(?m)^(pub )?{re.escape(old)}(?= [:=])", rf"\1{function}_spec", text)
    text = text.replace(".type-inv", ".type_inv")
    return text, said


if __name__ == "__main__":
    main()
