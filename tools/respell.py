#!/usr/bin/env python3
"""Respells the repository's own definitions, fields and lemmas in snake case.

usage: python3 tools/respell.py     at the top of the repository, once, right after the kit's port.py

A name that a file of specs/ or proofs/ defines, or binds by let, and that is written
likeThis or like-this, becomes like_this. Types, modules, functions of src/ and the names
that Rattle makes keep their spelling. A lemma that would then have the name of a
definition gets _lem after its name.
"""

import os
import re

DEFINED = re.compile(r"^(\s*)((?:pub|abbrev|unfoldable)\s+)*([^\s(){}:;.,]+)\s*:(?!=)\s")
BOUND = re.compile(r"\b(?:let|as)\s+([^\s(){}:;.,=]+)")
LABEL = re.compile(r"\b(?:ensures|requires|ghost) ([a-z]+(?:_[a-z]+)+)(?: \{|:)")
TOKEN = re.compile(r"[^\s(){}\[\]:;,.\"«»λ]+")

# Lemmas that are named as a definition is.
LEMMAS = """last-in number-in half-in-range frame-drawn frame-last-drawn lawful-frame sequence-of frames-drawn if-cut count-due
frame-due next-sequence with-frame if-lawful station-packed extension-bits shortName-packed half-packed service-packed
parameter-packed place-number size-due two-written""".split()

# The same, where the first script respelled the lemma and not the definition: the crates' folders, and the name.
ALREADY = [("alert", "head_in"), ("card", "with_call"), ("air", "with_second"), ("contents", "one_written")]

# The name of a lemma where a file has it from this module, or is it; elsewhere it is a clause's.
IN_RANGE = re.compile(r"proofs\.Ranges\.\{[^}]*\bin-range\b|^pub in-range :", re.M)


def snake(name):
    name = name.replace("-", "_").replace("′", "'")
    return re.sub(r"([a-z0-9])([A-Z])", lambda m: m.group(1) + "_" + m.group(2).lower(), name)


def is_older(name):
    return ("-" in name and name[0].islower()) or (name[:1].islower() and re.search(r"[a-z0-9][A-Z]", name)) or "′" in name


def files(ending):
    for folder, dirs, names in os.walk("crates"):
        dirs[:] = sorted(d for d in dirs if d != "out")
        for n in sorted(names):
            if n.endswith(ending):
                yield os.path.join(folder, n)


def own_names():
    """The names to respell: all files', and those that each file binds."""
    everywhere, here = set(), {}
    for path in files(".antt"):
        with open(path) as f:
            text = f.read()
        if not path.endswith(("Answers.antt", "Invariants.antt", "Proof.antt")):
            for line in text.split("\n"):
                m = DEFINED.match(line)
                if m and is_older(m.group(3)):
                    everywhere.add(m.group(3))
        here[path] = {n for n in BOUND.findall(text) if is_older(n)}
    for path in files(".rt"):
        with open(path) as f:
            text = f.read()
        everywhere |= {n.replace("_", "-") for n in LABEL.findall(text)}
        here[path] = {n for n in BOUND.findall(text) if is_older(n)}
    return everywhere, here


def new_name(name, has_lemma):
    if name in LEMMAS or (name == "in-range" and has_lemma):
        return snake(name) + "_lem"
    return snake(name)


def respell(line, crate, names, has_lemma):
    """The line with each of the names respelled, but for names that Rattle made."""
    code, dashes, comment = line.partition("--")

    def turned(m):
        name, before, after = m.group(0), code[: m.start()], code[m.end() :]
        if re.search(r"(?<![\w'-])goal\.$", before) or (before.endswith("c.") and name == "unless-refused"):
            return name
        if (crate, name) in ALREADY and not before.endswith(".") and not after.startswith("."):
            return name + "_lem"
        return new_name(name, has_lemma) if name in names else name

    return TOKEN.sub(turned, code) + dashes + comment


def main():
    everywhere, here = own_names()
    for path in [*files(".antt"), *files(".rt")]:
        with open(path) as f:
            old = f.read()
        # src/ has definitions and their aliases alone
        names = everywhere | here[path]
        if path.endswith(".rt"):
            names = {n for n in names if "-" not in n}
        new = "\n".join(respell(line, path.split(os.sep)[1], names, IN_RANGE.search(old)) for line in old.split("\n"))
        if new != old:
            with open(path, "w") as f:
                f.write(new)


main()
