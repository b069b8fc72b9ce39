#!/usr/bin/env python3
"""Brings the repository's own definitions and lemmas to the spelling of today's Rattle. Run once, at the top, after the kit's port.py.

A definition, a field, a constructor and a lemma is in snake case: `setOf` becomes `set_of`, `from-0-and-2` becomes `from_0_and_2`. A dash stays
between two names of which a lemma speaks, both definitions or words of the kit for operators, as in `length-drop`. Types, modules and names of
src/ keep their spelling. A lemma that would fall together with another name ends in `_lem`. What a proof file alone declares for its own goals
(proofs/F/Proof.antt) keeps its names.

It turns whole words of .antt files, of the clauses and `ghost use` lines of .rt files, of must-fail edits, and of code spans in README.md and
docs/*.md. A word of a comment turns where it is in camel case or in a code span. It prints the names that it turned to /tmp/respelled.txt.
"""

import os
import re
import sys

DECLARED = re.compile(r"^(\s*)((?:pattern |unfoldable |abbrev |pub |data |record |ruleset )*)([^\s:(){}=,;.]+) ?(?:[({][^=]*?[)}] ?)*:(?![=])")
WORD = re.compile(r"[^\s(){}\[\].;,@\"«»`:|?!/\\]+")
# words of the kit, after which its own lemmas are named
OPERATORS = set(
    "add sub mul div rem mod pow le lt eq not and or xor shl shr suc zero length append take drop set get get_or cons nil map filter "
    "foldl reverse replicate sum min max bit_and bit_or eqb leb ltb pick".split()
)
# names whose snake case falls on a name of src/ or of the kit, or reads badly
CHOSEN = {
    # fields that would hide the definition of which they speak
    "bytes-dear": "bytes_of_dear",
    "bytes-even": "bytes_of_even",
    "bytes-long": "bytes_of_long",
    "bytes-phi": "bytes_of_phi",
    "bytes-psi": "bytes_of_psi",
    "bytes-tie": "bytes_of_tie",
    "book-bytes": "bytes_of_book",
    "run-bytes": "bytes_of_run",
    "counts-out": "counts_are_out",
    "no-counts": "counts_missing",
    "first-slots": "slots_at_first",
    "one-stuck": "stuck_at_one",
    "ones-only": "only_ones",
    "weights-in": "weights_within",
    "wrong-item": "item_wrong",
    "first-move": "move_at_first",
    "run-of": "run_lent",
    "item_in": "item_within",
    # lemmas that would have their function's name
    "least_at": "least_at_lem",
    "item_from": "item_from_lem",
}


def files(root, ends):
    for top, dirs, names in os.walk(os.path.join(root, "crates")):
        dirs[:] = sorted(d for d in dirs if d != "out")
        for n in sorted(names):
            if n.endswith(ends):
                yield os.path.join(top, n)


def read(path):
    with open(path, encoding="utf-8") as f:
        return f.read()


def snake(word):
    word = re.sub(r"(?<=[a-z0-9])(?=[A-Z])", "_", word)
    word = re.sub(r"(?<=[A-Z])(?=[A-Z][a-z])", "_", word)
    return word.lower()


def is_type(word):
    return word[:1].isupper()


def code_of(line):
    at = line.find("--")
    while at > 0 and line[at - 1] not in " \t":
        at = line.find("--", at + 1)
    return line if at < 0 else line[:at]


def declared(root):
    """Names declared: in specs/, in proofs/, as fields, and in the proof of one function alone."""
    specs, proofs, fields, local = set(), set(), set(), set()
    for path in files(root, ".antt"):
        own = os.path.basename(path) in ("Proof.antt", "Answers.antt", "Invariants.antt")
        for line in read(path).split("\n"):
            m = DECLARED.match(code_of(line))
            if not m or is_type(m[3]) or not re.match(r"[a-z]", m[3]):
                continue
            (local if own else specs if "/specs/" in path else proofs).add(m[3])
            if m[1] and "pub" in m[2] and not own:
                fields.add(m[3])
    return specs, proofs, fields, local


def table(root):
    specs, proofs, fields, local = declared(root)
    words, rust = set(), set()
    for path in files(root, ".antt"):
        words |= {w for line in read(path).split("\n") for w in re.findall(r"[A-Za-z_][\w'-]*", code_of(line))}
    for path in files(root, ".rt"):
        rust |= set(re.findall(r"\w+", read(path)))
    definitions = {n for n in specs if "-" not in n} | OPERATORS

    def parts(n):
        first, rest = n.split("-", 1)
        return snake(first) + ("-" if first in definitions and rest in definitions else "_") + snake(rest.replace("-", "_"))

    camel = {n for n in specs | proofs | local if re.search(r"[A-Z]", n) and "-" not in n}
    dashed = {n for n in (specs | proofs) if "-" in n}
    rows, taken, said = {}, {}, []
    order = sorted(n for n in CHOSEN if n in specs | proofs | local)
    order += sorted(camel & specs) + sorted(camel - specs) + sorted(dashed & specs - camel) + sorted(dashed - specs)
    for n in order:
        if n in rows:
            continue
        new = CHOSEN.get(n) or (snake(n.replace("-", "_")) if n in specs or n in camel else parts(n))
        if new == n:
            continue
        lemma = n in dashed and n not in specs
        if new in taken or new in (words - set(CHOSEN)) or (lemma and new in rust):
            why = taken.get(new) or ("a word of src/" if new in rust else "a word of the files")
            if lemma:
                new += "_lem"
            said.append((n, new, why, "lemma" if lemma else "definition or field"))
        taken[new] = n
        rows[n] = new
    return rows, said, fields


def turn_antt(text, rows, own=False, fields=()):
    out = []
    for line in text.split("\n"):
        code = code_of(line)
        said = line[len(code) :]
        code = WORD.sub(
            lambda m: m[0] if own and m.start() and code[m.start() - 1] == "." and m[0] not in fields and "-" in m[0] else turn_word(m[0], rows), code
        )
        said = turn_prose(said, rows)
        out.append(code + said)
    return "\n".join(out)


def turn_word(word, rows):
    if word in rows:
        return rows[word]
    bare = word.rstrip("'")
    if bare in rows:
        return rows[bare] + word[len(bare) :]
    return word


def turn_prose(text, rows):
    parts = re.split(r"(`[^`\n]*`)", text)
    for i, p in enumerate(parts):
        if i % 2:
            parts[i] = WORD.sub(lambda m: turn_word(m[0], rows), p)
        else:
            parts[i] = re.sub(r"[\w'-]+", lambda m: turn_word(m[0], rows) if re.search(r"[a-z][A-Z]", m[0]) else m[0], p)
    return "".join(parts)


def turn_rt(text, rows):
    """Clauses and `ghost use` items, and camel case anywhere but in strings."""
    out = []
    for line in text.split("\n"):
        at = line.find("//")
        code, said = (line, "") if at < 0 else (line[:at], line[at:])
        ghost = re.match(r"\s*(ghost|requires|ensures)\b", code)
        pieces = re.split(r'("(?:\\.|[^"\\])*")', code)
        for i, p in enumerate(pieces):
            if i % 2 == 0:
                pieces[i] = WORD.sub(
                    lambda m: turn_word(m[0], rows) if ghost or re.search(r"[a-z][A-Z]", m[0]) else m[0], p
                )
        out.append("".join(pieces) + turn_prose(said, rows))
    return "\n".join(out)


def turn_edit(text, rows):
    file = re.search(r"(?m)^file: *(\S+)", text)
    how = turn_rt if file and file[1].endswith(".rt") else turn_antt
    out = []
    for line in text.split("\n"):
        m = re.match(r"(old|new): ?", line)
        out.append(line[: m.end()] + how(line[m.end() :], rows) if m else turn_prose(line, rows))
    return "\n".join(out)


def main():
    root = sys.argv[1] if len(sys.argv) > 1 else "."
    rows, said, fields = table(root)
    for n, w, why, kind in said:
        print(f"falls together: {n}: {why}: written {w} ({kind})")
    if "--look" in sys.argv:
        for n in sorted(rows):
            print(n, rows[n])
        return
    changed = 0
    jobs = [(p, turn_antt) for p in files(root, ".antt")] + [(p, turn_rt) for p in files(root, ".rt")]
    jobs += [(p, turn_edit) for p in files(root, ".edit")]
    docs = [os.path.join(root, "README.md")] + [os.path.join(root, "docs", n) for n in sorted(os.listdir(os.path.join(root, "docs"))) if n.endswith(".md")]
    jobs += [(p, turn_prose) for p in docs]
    for path, how in jobs:
        old = read(path)
        new = turn_antt(old, rows, True, fields) if path.endswith("/Proof.antt") else how(old, rows)
        if new != old:
            changed += 1
            with open(path, "w", encoding="utf-8") as f:
                f.write(new)
    with open("/tmp/respelled.txt", "w", encoding="utf-8") as f:
        f.write("".join(f"{n}\t{rows[n]}\n" for n in sorted(rows)))
    print(f"respell: {len(rows)} names, {changed} files")


main()
