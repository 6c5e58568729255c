#!/usr/bin/env python3
"""Spells this repository's own names as today's Rattle does: definitions, lemmas, fields and constructors in snake case.

usage: respell.py [--look]        at the top of the repository, once, after port.py

Where names stand: specs/ and proofs/ of each crate, the 'ghost use' items and the clauses of src/. A name that a file has from a library of the kit
stays in that file, as does a name that Rattle makes (in Proof.antt: what stands behind a dot, but for fields that the repository declares, and the
names of needs). Names of src/, strings, inputs and outputs stay. --look prints names that would fall together, and writes nothing.
"""
import collections
import glob
import os
import re
import sys

TOKEN = re.compile(r'--[^\n]*|\{-.*?-\}|"(?:[^"\\\n]|\\.)*"|[^\s(){}.;,@"«»\[\]]+|.', re.S)
USE = re.compile(r"(?m)^[ \t]*(?:pub )?use (\S+?)(?:\.\{([^}]*)\}|(?: as (\S+))?[ \t]*$)")
CLAUSE = re.compile(r"\b(?:requires|ensures)\*? *(?:\w+ *)?\{|\bghost *(?:\w+ *: *)?\{|\bghost use\b[^;]*;")
NEED = re.compile(r"(?m)^(\S+) : tie\.(?:Need-|invariant-|decreases-)")
DECLARES = re.compile(r"(?m)^[ \t]*(?:(?:abbrev|unfoldable|pub|opaque|record|data|enum) )*([^\s(){}.;,@\"«»:]+)(?: \{[^{}\n]*\})*(?: \([^()\n]*\))* :(?= |$)")
RECORD = re.compile(r"(?m)^([ \t]*)(?:pub )?record [^\n]*where\n((?:\1[ \t]+[^\n]*\n|\n)+)")

# Names that would fall together with another: what the first is called in its place.
OTHERWISE = {
    "and-then": "and_then_zero",
    "awaits-one": "awaits_one_of",
    "begun-of": "begun_of_levels",
    "by-device": "of_device_row",
    "by-link": "of_link_row",
    "fed-byte": "fed_byte_of",
    "goesOn": "goes_on_after",
    "in-eight": "in_eight_of",
    "isKnown": "is_known_kind",
    "is-primary": "is_primary_by_gate",
    "item-rows": "item_rows_told",
    "items-rows": "items_rows_told",
    "judged-as": "judged_as_formed",
    "lean-item": "spells_lean_item",
    "lean-items": "spells_lean_items",
    "lean-only-lines": "lean_only_lines_answered",
    "number-as": "number_as_kind",
    "own-freed": "own_freed_stays",
    "phase-after": "phase_after_step",
    "row-size": "row_size_most",
    "shown-at": "shown_at_noted",
    "some-open": "some_open_of",
    "stack-of": "stack_of_reversed",
    "state-in": "state_in_phase",
    "step-at": "step_at_state",
    "text-byte": "text_byte_of",
    "text-fed": "text_fed_of",
    "wide-lines": "wide_lines_right",
}


def snake(name):
    head = re.sub(r"(?<=[a-z0-9])[A-Z]", lambda m: "_" + m[0].lower(), name) if re.match(r"[a-zα-ω]", name) else name
    return head.replace("-", "_")


def is_old(name):
    return bool(re.match(r"[A-Za-zα-ωμ]", name)) and snake(name) != name


def read(path):
    with open(path, encoding="utf-8") as f:
        return f.read()


def crates():
    return set(os.listdir("crates"))


def texts():
    return sorted(glob.glob("crates/*/specs/**/*.antt", recursive=True) + glob.glob("crates/*/proofs/**/*.antt", recursive=True))


def is_own(module, own):
    parts = module.split(".")
    return parts[0] == "Rattle" and len(parts) > 1 and parts[1] in own


def fields():
    found = set()
    for path in texts():
        for record in RECORD.finditer(read(path)):
            found |= {f[1] for f in re.finditer(r"(?m)^[ \t]+(?:pub )?(\S+)(?: \{[^{}\n]*\})* :", record[2])}
    return found


def new_name(word):
    return OTHERWISE.get(word) or snake(word)


def lent(text, own):
    """Names that the file has from the kit's libraries, and words behind which such names stand."""
    names, heads = set(), set()
    for it in USE.finditer(text):
        if is_own(it[1], own):
            continue
        for part in (it[2] or "").split(","):
            names.add(part.strip().split(" as ")[0].strip())
        if it[3]:
            heads.add(it[3])
    return names, heads


def turn_antt(path, text, own, made):
    kept, heads = lent(text, own)
    is_proof = path.endswith("/Proof.antt")
    needs = set(NEED.findall(text)) if is_proof else set()
    reads = {a for a in re.findall(r"use Rattle\.\S+\.(?:Reads|Tie|Goals|Given) as (\S+)", text)}
    out, before, head, line_start = [], "", "", True
    in_use = None
    for it in TOKEN.finditer(text):
        word = it[0]
        if word == "\n":
            in_use = None
        if word == "use" and (text[: it.start()].rsplit("\n", 1)[-1].strip() in ("", "pub")):
            rest = text[it.end() :].split("\n", 1)[0].strip()
            in_use = is_own(rest.split(" ")[0].split("{")[0].rstrip("."), own)
        new = word
        if word.startswith("--"):
            new = word
        elif is_old(word):
            if in_use is False:
                # an alias is the file's own
                if text[: it.start()].endswith(" as ") and word not in kept:
                    new = new_name(word)
            elif in_use is True:
                # the path of a module stays, its names turn
                new = new_name(word)
            elif word in kept or word in needs:
                new = word
            elif before == ".":
                if head in heads or (head in reads):
                    new = word
                elif is_proof:
                    new = new_name(word) if word in made else word
                else:
                    new = new_name(word)
            else:
                new = new_name(word)
        out.append(new)
        if word == ".":
            before = "."
        elif not word.isspace():
            if before != ".":
                head = word
            before = word
        else:
            before = " "
    return "".join(out)


def clause_end(text, start):
    depth = 0
    for k in range(start, len(text)):
        depth += (text[k] == "{") - (text[k] == "}")
        if depth == 0:
            return k + 1
    return len(text)


def turn_words(text, own):
    return re.sub(r"[A-Za-zα-ωμ][^\s(){}.;,@\"«»\[\]]*", lambda m: new_name(m[0]) if is_old(m[0]) else m[0], text)


def turn_rt(text, own):
    out, at = [], 0
    for it in CLAUSE.finditer(text):
        if it.start() < at:
            continue
        line = text[: it.start()].rsplit("\n", 1)[-1]
        if "//" in line:
            continue
        out.append(text[at : it.start()])
        if it[0].startswith("ghost use"):
            module = it[0].split()[2]
            out.append(turn_words(it[0], own) if is_own(module, own) else it[0])
            at = it.end()
        else:
            end = clause_end(text, it.end() - 1)
            out.append(turn_words(text[it.start() : end], own))
            at = end
    out.append(text[at:])
    return "".join(out)


def look(own, made):
    for path in texts():
        text = read(path)
        new = turn_antt(path, text, own, made)
        a = [t[0] for t in TOKEN.finditer(text)]
        b = [t[0] for t in TOKEN.finditer(new)]
        met = collections.defaultdict(set)
        for x, y in zip(a, b):
            if not x.startswith(("--", '"', "{-")):
                met[y].add(x)
        for y, xs in sorted(met.items()):
            if len(xs) > 1:
                print(f"{path}: {y}: {' '.join(sorted(xs))}")


def main(argv):
    own = crates()
    made = fields()
    if "--look" in argv:
        look(own, made)
        return
    turned = 0
    for path in texts():
        text = read(path)
        new = turn_antt(path, text, own, made)
        if new != text:
            turned += 1
            open(path, "w", encoding="utf-8").write(new)
    for path in sorted(glob.glob("crates/*/src/**/*.rt", recursive=True)):
        text = read(path)
        new = turn_rt(text, own)
        if new != text:
            turned += 1
            open(path, "w", encoding="utf-8").write(new)
    print(f"respell: {turned} files")


if __name__ == "__main__":
    main(sys.argv[1:])
