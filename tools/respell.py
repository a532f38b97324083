#!/usr/bin/env python3
"""Brings the names of definitions and lemmas in specs/ and proofs/ to one spelling: words in snake case, parted by `_`.

usage: tools/respell.py            at the top of a tree that has older names
       tools/respell.py --list     only prints each old name with its new one, and names that would fall together

A dash stays where it parts nothing but names of definitions, as in `any-flatten`. Types, constructors of the code and the
paper's N, M and K keep their spelling. Names that a proof file gives to the goals of one function are left alone.
"""

import glob
import os
import re
import sys

TOKEN = re.compile(r"[^\s(){}\[\];,.:λ«»\"`@]+")
DECLARED = re.compile(r"^(\s*)((?:unfoldable|abbrev|pub|open)\s+)*([^\s(){}\[\];,.:]+)\s*:\s")
DATA = re.compile(r"^\s*(?:pub\s+)?(?:record|data|ruleset)\s+([^\s(){}\[\];,.:]+)")
# what the library calls by these words
LIBRARY = {"length", "map", "take", "drop", "sum", "set", "flatten", "zip_with", "replicate", "reverse", "get_or", "append", "not"}
# facts and grammars that were not spelled as types, and names whose plain form another definition has
GIVEN = {
    "word_in": "WordIn", "wordIn": "WordIn", "countIn": "CountIn", "numeralIn": "NumeralIn", "nextIn": "NextIn", "headIn": "HeadIn", "valueIn": "ValueIn", "heardIn": "HeardIn",
    "Size": "size_outcome", "Compile": "compile_outcome", "Decode": "decode_outcome", "Judge": "judge_outcome", "Image": "image_outcome",
    "bounds-read": "bounds_read_lem", "full-count": "full_count_lem", "how-many": "how_many_lem", "is-model": "is_model_lem", "least-true": "least_true_lem",
    "led-in": "led_in_lem", "literal-of": "literal_of_lem", "order-number": "order_number_lem", "slot-literal": "slot_literal_lem", "terms-at": "terms_at_lem",
    "to-image": "to_image_lem", "value-bounds": "value_bounds_lem", "next_low": "next_low_lem", "number_read": "number_read_lem", "is_true": "is_true_lem",
    "Closing": "closing_outcome", "WriteText": "write_text_outcome", "ReadText": "read_text_outcome", "ReadReply": "read_reply_outcome",
}
# the same, where the old name means something else elsewhere
GIVEN_AT = {
    "crates/laws/specs/Explained.antt": {"in_bounds": "within_bounds"},
    "crates/image/proofs/Imaged.antt": {"in_bounds": "in_bounds_lem"},
    "crates/next/specs/OnceTheorems.antt": {"in_order": "in_order_lem"},
}


def files():
    for pattern in ("crates/*/specs/**/*.antt", "crates/*/proofs/**/*.antt"):
        for path in sorted(glob.glob(pattern, recursive=True)):
            if "/out/" not in path:
                yield path


def is_lemma_file(path):
    return "/specs/" in path or os.path.basename(path) not in ("Proof.antt", "Answers.antt", "Invariants.antt")


def snake(word):
    word = re.sub(r"(?<=[a-z0-9])([A-Z])(?=[a-z])", lambda m: "_" + m.group(1).lower(), word)
    word = re.sub(r"(?<=[a-z])([A-Z]+)(?=$|[-_0-9])", lambda m: "_" + m.group(1), word)
    return word


def respelled(name, definitions):
    if name in GIVEN:
        return GIVEN[name]
    if "◌" in name or not re.match(r"[A-Za-zα-ω]", name):
        return name
    parts = name.split("-")
    if re.match(r"[A-Z][a-z]", parts[0]) and len(parts) == 1:
        return name
    new = [p if re.match(r"[A-Z]", p) else snake(p) for p in parts]
    new = [re.sub(r"ℕ(?=$)", "_ℕ", p) if len(p) > 1 and p[-1] == "ℕ" and p[-2] != "_" else p for p in new]
    new = [p[:-2] + "_z" if re.search(r"[a-z]_Z$", p) else p for p in new]
    dash = len(new) > 1 and all(p in definitions for p in new)
    return ("-" if dash else "_").join(new)


def tables():
    declared, definitions, fields = {}, set(LIBRARY), set()
    for path in files():
        if not is_lemma_file(path):
            continue
        in_type = False
        for line in open(path, encoding="utf-8"):
            m = DATA.match(line)
            if m:
                declared.setdefault(m.group(1), path)
                in_type = line.lstrip().startswith(("pub record", "pub data", "record", "data"))
                continue
            if line.strip() and not line[0].isspace():
                in_type = False
            m = DECLARED.match(line)
            if m and m.group(3) not in ("let", "where", "elim", "in"):
                declared.setdefault(m.group(3), path)
                if in_type and m.group(1):
                    fields.add(m.group(3))
                if re.match(r"\s*((pub|open)\s+)*(unfoldable|abbrev)", line):
                    definitions.add(snake(m.group(3)))
    return declared, definitions, fields


def from_outside():
    """Names that some file takes from the library: of these nothing here is renamed."""
    own = {os.path.basename(os.path.dirname(p)) for p in glob.glob("crates/*/")}
    names = set()
    for path in files():
        for m in re.finditer(r"use ([^\s{]+)\.\{([^}]*)\}", open(path, encoding="utf-8").read()):
            root = m.group(1).split(".")
            if not (root[0] == "Rattle" and root[1] in own):
                names |= {n.split(" as ")[0].strip() for n in m.group(2).split(",")}
    return names


def renaming():
    declared, definitions, fields = tables()
    new = {}
    for name in sorted(set(declared) - from_outside()):
        to = respelled(name, definitions)
        if to != name:
            new[name] = to
    return declared, new, fields


def words(text):
    return set(TOKEN.findall(text))


def turned(text, new, after_dot, whole=None):
    """Every whole word of `text` that has a new name; behind a dot only a field's, and a module's in a `use`."""
    modules = set(re.findall(r"use [\w.]+ as ([a-z_]+)", text)) if whole is None else whole

    def one(m):
        word = m.group(0)
        if word not in new:
            return word
        before = text[max(0, m.start() - 40):m.start()]
        if before.endswith("mod "):
            return word
        if before.endswith(".") and word not in after_dot:
            behind = re.search(r"(?:^|[^\w.])([a-z_]+)\.$", before)
            return new[word] if behind and behind.group(1) in modules else word
        return new[word]
    return TOKEN.sub(one, text)


def main():
    declared, new, fields = renaming()
    all_words = set()
    texts = {}
    for path in files():
        texts[path] = open(path, encoding="utf-8").read()
        all_words |= words(texts[path])
    seen = {}
    for old, to in sorted(new.items()):
        if to in seen:
            print(f"together: {old} and {seen[to]} -> {to}")
        elif to in all_words:
            print(f"taken: {old} -> {to}")
        seen.setdefault(to, old)
    if "--list" in sys.argv:
        for old, to in sorted(new.items()):
            print(f"{old} {to}")
        return
    after_dot = {f for f in fields if f in new}
    for path, text in texts.items():
        write(path, text, in_proofs(path, text, new, after_dot))
    for path in sorted(glob.glob("crates/*/src/**/*.rt", recursive=True)):
        text = open(path, encoding="utf-8").read()
        write(path, text, in_clauses(text, new, after_dot))
    beside(declared, {**new, "isTrue": "is_true", "isFalse": "is_false"})


def beside(declared, new):
    """Edits, pages and tests: a word whose new spelling is a name of the repository or one that it takes from the library."""
    definitions = tables()[1]
    names = set(declared) | set(new.values()) | from_outside()
    port = {"leZ": "le_z", "ltZ": "lt_z", "zipWith": "zip_with", "toZ": "to_z", "ofZ": "of_z"}

    def one(m):
        word = m.group(0).replace("\u2032", "'")
        if word in port:
            return port[word]
        if word in new:
            return new[word]
        for to in (respelled(word, definitions), snake(word).replace("-", "_")):
            if to != word and to in names and word not in names:
                return to
        return m.group(0) if word not in names else word

    for path in sorted(glob.glob("crates/*/must-fail/*.edit") + glob.glob("crates/*/wrong/*.edit")):
        text = open(path, encoding="utf-8").read()
        lines = [re.sub(r"(?<=[\w')\]]) \.(?=[a-z01])", ".", TOKEN.sub(one, l)) if l.startswith(("old:", "new:")) else l for l in text.split("\n")]
        write(path, text, "\n".join(lines))
    for path in ["README.md"] + sorted(glob.glob("docs/*.md")):
        text = open(path, encoding="utf-8").read()
        write(path, text, re.sub(r"`[^`\n]+`", lambda m: m.group(0) if ".antt" in m.group(0) else TOKEN.sub(one, m.group(0)), text))


def operations_seen(text):
    """The outcome functions that a file declares or takes from the definitions: elsewhere the word is another's."""
    seen = set()
    for m in re.finditer(r"use Rattle\.definitions\.specs\.(?:Operations|Closing|TextOperations)\.\{([^}]*)\}", text):
        seen |= {n.split(" as ")[0].strip() for n in m.group(1).split(",")}
    return {n for n in GIVEN if n[0].isupper() and (n in seen or re.search(r"(?m)^unfoldable pub " + n + " :", text))}


def in_proofs(path, text, new, after_dot):
    seen = operations_seen(text)
    here = {o: t for o, t in new.items() if not (o in GIVEN and o[0].isupper() and o not in seen)}
    here.update(GIVEN_AT.get(path, {}))
    plain = {o: t for o, t in here.items() if not (o in GIVEN and o[0].isupper())}
    modules = set(re.findall(r"use [\w.]+ as ([a-z_]+)", text))
    return "\n".join(turned(line, plain if line.lstrip().startswith("--") else here, after_dot, modules) for line in text.split("\n"))


def in_clauses(text, new, after_dot):
    """Clauses, `ghost use` lines and comments: names of specs/ with a capital inside or a dash are never the code's."""
    own = {o: t for o, t in new.items() if not o[0].isupper() and o != o.lower() or "-" in o}
    text = turned(text, own, after_dot)
    out, inside = [], 0
    for line in text.split("\n"):
        ghost = line.lstrip().startswith(("ghost use", "requires", "ensures"))
        if ghost or inside:
            seen = operations_seen(text)
            line = turned(line, {o: t for o, t in new.items() if o in seen or o == "word_in"}, after_dot)
        if ghost and line.lstrip().startswith(("requires", "ensures")) or inside:
            inside = inside + line.count("{") - line.count("}")
        out.append(line)
    return "\n".join(out)


def write(path, old, new):
    if old != new:
        with open(path, "w", encoding="utf-8") as f:
            f.write(new)


if __name__ == "__main__":
    main()
