#!/usr/bin/env python3
"""Brings this repository's own definitions and lemmas to the kit's spelling of names, once, after the kit's port.py:

    python3 tools/spelling.py        at the top

Words are in snake case; a dash stays only between two names; `getD` is `get_or`. Where a new name would fall together with another
one, FIXED says what it is called. Names of src/, of goals and of files stay.
"""
import collections
import os
import re
import sys

TOKEN = re.compile(r"[^\s(){}\[\].;,@\"«»`]+")
GOAL = re.compile(r"^(returns|loop|loop\d|add|sub|mul|cast|index|array|slice|same|stores?|decreases|invariant|neg|shl|shr|rem|div)-")

# A new name that another word of the repository has already, or that a parameter, a field or a crate has.
FIXED = {
    "bookBytes": "bytes_of_book",
    "bookCalls": "calls_of_book",
    "planBytes": "bytes_of_plan",
    "stateBytes": "bytes_of_state",
    "sitePlan": "plan_of_site",
    "controlAt": "control_slot_at",
    "dataAt": "data_slot_at",
    "discoveryAt": "discovery_slot_at",
    "sleepAt": "sleep_slot_at",
    "nextHop": "next_hop",
    "superframeMs": "superframe_ms_of",
    "tooShort": "is_too_short",
    "passedOver": "passed_over_of",
    "ask-short": "ask_short_lem",
    "asked-slots": "asked_slots_lem",
    "book-back": "book_back_lem",
    "data-slots": "data_slots",
    "empty-is": "empty_is_lem",
    "empty-row": "empty_row_lem",
    "in-turn": "in_turn_lem",
    "is-none": "is_none_lem",
    "join-short": "join_short_lem",
    "no-book": "no_book_lem",
    "no-slots": "no_slots_lem",
    "out-of-rule": "out_of_rule_lem",
    "seen-fields": "seen_fields_lem",
    "slot-ms": "slot_ms",
}

# Words of the kit's library that had a path in their name.
PATHS = {
    "List·getD-append": "get_or-append",
    "List·getD-eq-default": "get_or-eq_default",
    "List·getD-map": "get_or-map",
    "List-as-Memᴰ": "Memᴰ",
    "List·Memᴰ·head": "mem_head",
    "List·Memᴰ·tail": "mem_tail",
    "eqb·suc-suc": "eqb-suc-suc",
    "leb·suc-suc": "leb-suc-suc",
}

# Lemmas that port.py gave the name which a definition gets here. Behind a dot the word is a function of src/.
LEMMAS = {name: name + "_lem" for name in ("held_by", "in_order", "in_use", "laid_out", "passed_on", "place_at", "read_as", "read_left", "row_back", "rows_in")}


def files(kinds):
    for top in ("crates", "contracts"):
        for folder, dirs, names in os.walk(top):
            dirs[:] = sorted(d for d in dirs if d not in ("out", "target"))
            for name in sorted(names):
                if name.endswith(kinds):
                    yield os.path.join(folder, name)


def read(path):
    with open(path, encoding="utf-8") as f:
        return f.read()


def declared(text):
    for m in re.finditer(r"^\s*(?:abbrev |unfoldable |pub |data |record |mutual )*([^\s():{}]+(?: [^\s():{}]+)*)\s*(?:\{[^}]*\})?\s*:(?!=)", text, re.M):
        if "--" in m[1]:
            continue
        for name in m[1].split():
            if name not in ("pub", "abbrev", "unfoldable", "record", "data", "let", "where") and TOKEN.fullmatch(name):
                yield name


def snake(name):
    name = name.replace("getD", "get_or")
    return re.sub(r"(?<=[a-z0-9])[A-Z]", lambda m: "_" + m[0].lower(), name)


def is_law_file(path):
    return path.endswith(".antt") and re.match(r"crates/\w+/(specs|proofs)/\w+\.antt$", path)


def table():
    names, laws, words = set(), set(), set()
    for path in files((".antt", ".rt")):
        text = read(path)
        if path.endswith(".rt"):
            names |= set(re.findall(r"\bfn (\w+)", text))
            continue
        for m in re.finditer(r"^(?:pub )?use (\S+?)\.\{([^}]*)\}", text, re.M):
            if not m[1].startswith("Rattle.") or m[1].startswith("Rattle.std"):
                for it in m[2].split(","):
                    words.add(it.split(" as ")[-1].strip())
        if is_law_file(path):
            if "/specs/" in path:
                names |= set(declared(text))
            laws |= set(declared(text))
    turned = {}
    for name in sorted(laws | names):
        if re.fullmatch(r"[a-z][A-Za-z0-9'_]*", name) and re.search("[A-Z]", name):
            turned[name] = FIXED.get(name, snake(name))
    known = {turned.get(n, n) for n in names if "-" not in n} | {w for w in words if re.fullmatch(r"[a-zA-Z0-9_'ℕ]+", w)}
    for name in sorted(laws):
        if "-" in name and re.fullmatch(r"[a-zA-Z][A-Za-z0-9'_-]*", name) and not GOAL.match(name) and not name.endswith("-spec"):
            parts = snake(name).split("-")
            new = "_".join(parts)
            for at in range(1, len(parts)):
                left, right = "_".join(parts[:at]), "_".join(parts[at:])
                if left in known and right in known:
                    new = left + "-" + right
                    break
            new = FIXED.get(name, new)
            if new != name:
                turned[name] = new
    return turned


def main():
    turned = table()
    if "--table" in sys.argv:
        print("\n".join(f"{a}\t{b}" for a, b in sorted(turned.items())))
        return
    there = set()
    for path in files((".antt",)):
        there |= set(TOKEN.findall(re.sub(r"(?m)(?<!\S)--.*$", "", read(path))))
    clashes = collections.defaultdict(set)
    for old, new in turned.items():
        if new in there:
            clashes[new].add(old)
    by_new = collections.defaultdict(set)
    for old, new in turned.items():
        by_new[new].add(old)
    for new, olds in sorted(by_new.items()):
        if len(olds) > 1:
            print("look: two names fall together:", new, sorted(olds))
    for new, olds in sorted(clashes.items()):
        print("look: a name that is there already:", new, sorted(olds))
    if "--check" in sys.argv:
        return
    steps = {name.replace("_", "-") for path in files((".rt",)) for name in re.findall(r"\bfn (\w+)", read(path))}
    for path in files((".antt", ".rt", ".edit")):
        text = read(path)
        proof = path.endswith("/Proof.antt")

        def one(m, line):
            word, dotted = m[0], line[m.start() - 1 : m.start()] == "."
            if word in LEMMAS and path.endswith(".antt"):
                return word if dotted else LEMMAS[word]
            if word in PATHS:
                return PATHS[word]
            if "-" in word and (not path.endswith((".antt", ".edit")) or proof and dotted and word in steps):
                return word
            return turned.get(word, word)

        lines = []
        for line in text.split("\n"):
            code, dashes, words = line.partition("-- ") if path.endswith(".antt") else (line, "", "")
            lines.append(TOKEN.sub(lambda m: one(m, code), code) + dashes + re.sub(r"(?<=`)[^`\s]+(?=`)", lambda m: turned.get(m[0], m[0]) if "-" not in m[0] else m[0], words))
        new = re.sub(r"(?<![\w-])([\w\-ᴰ]+) as \1(?![\w-])", r"\1", "\n".join(lines))
        if new != text:
            with open(path, "w", encoding="utf-8") as f:
                f.write(new)
    print(f"{len(turned)} names")


main()
