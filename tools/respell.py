#!/usr/bin/env python3
"""Brings the names of this repository's own definitions and lemmas to the kit's spelling: words in snake case.

usage: tools/respell.py [FOLDER]     the repository (default: the current folder); files are rewritten in place

A name counts as the repository's own if a file of specs/ or proofs/ declares it: a definition, a lemma, a constructor, a
field or a variable of a section. Only names that begin with a small letter and have a capital inside change, and names in
capitals with a dash, as MAX-BEGUN. Functions and types of src/, exported names, strings and modules keep their names.
A lemma whose name a definition takes by this gets `_lem` first: LEMMAS has them, each with the file that declares it.
"""

import glob
import os
import re
import sys

WORD = r"[^\s(){}\[\]:;.,\"`≡×→λ]+"
TOKEN = re.compile(r"[A-Za-z_][A-Za-z0-9_'-]*[₀-₉]*|.", re.S)
CAMEL = re.compile(r"^[a-z][a-z0-9_]*[A-Z][A-Za-z0-9_']*[₀-₉]*$")
CAPITALS = re.compile(r"^[A-Z][A-Z0-9]*(-[A-Z0-9]+)+$")
MADE = re.compile(r"(?m)^\s*(?:(?:abbrev|unfoldable|opaque|pub|record|data)\s+)*([A-Za-z][\w'-]*[₀-₉]*)\s*(?:[({][^\n]*?[)}]\s*)*:")
LEMMAS = [
    ("above_zero", "crates/operations/proofs/Rest.antt"),
    ("all_hold", "crates/screen/proofs/Reached/Built.antt"),
    ("at_rest", "crates/operations/proofs/Reached.antt"),
    ("at_rest", "crates/torest/proofs/Laws.antt"),
    ("by_code", "crates/perform/proofs/Laws/Plans.antt"),
    ("either_way", "crates/clauses/proofs/Laws/Ranges.antt"),
    ("has_room", "crates/screen/proofs/Laws/Answers.antt"),
    ("in_bytes", "crates/billing/proofs/Schedules.antt"),
    ("in_window", "crates/hub/proofs/Window/Fitting.antt"),
    ("left_over", "crates/frame/proofs/Laws/Lines.antt"),
    ("not_opened", "crates/screen/proofs/Laws/Steps.antt"),
    ("not_yet", "crates/deskreply/proofs/Laws/Replies.antt"),
    ("open_row", "crates/hub/proofs/Laws/Rows.antt"),
    ("stands_at", "crates/hub/proofs/Window/Fitting.antt"),
    ("step_by", "crates/operations/proofs/Calls.antt"),
    ("turned_down", "crates/perform/proofs/perform_operations/Proof.antt"),
    ("two_digits", "crates/deskline/proofs/Laws/Numbers.antt"),
    ("written_at", "crates/hub/proofs/Laws/Seats.antt"),
]


def snake(name):
    if CAPITALS.match(name):
        return name.replace("-", "_")
    return re.sub(r"(?<=[a-z0-9])([A-Z])|(?<=[A-Z])([A-Z])(?=[a-z])", lambda m: "_" + m.group(0).lower(), name).lower()


def files(root, endings):
    for path in sorted(glob.glob(os.path.join(root, "crates/*/**/*"), recursive=True)):
        if path.endswith(endings) and "/out/" not in path and os.path.isfile(path):
            yield path


def parts(line, mark):
    """A line, and the comment that ends it."""
    at = line.find(mark)
    return (line, "") if at < 0 else (line[:at], line[at:])


def respelt(text, mark, names):
    out = []
    for line in text.split("\n"):
        code, comment = parts(line, mark)
        out.append("".join(names.get(t, t) for t in TOKEN.findall(code)) + comment)
    return "\n".join(out)


def own_names(root):
    """The names to change, each with its new spelling."""
    found = set()
    for path in files(root, (".antt",)):
        with open(path, encoding="utf-8") as f:
            text = f.read()
        for m in MADE.finditer(text):
            if CAMEL.match(m.group(1)) or CAPITALS.match(m.group(1)):
                found.add(m.group(1))
    return {n: snake(n) for n in found}


def with_lemmas(root):
    """Gives the lemmas of LEMMAS their new names, where they are declared and where they are imported."""
    for path in files(root, (".antt",)):
        with open(path, encoding="utf-8") as f:
            text = f.read()
        done = text
        for name, home in LEMMAS:
            here = os.path.relpath(path, root) == home
            crate, rest = home[len("crates/"):].split("/proofs/")
            module = "Rattle." + crate + ".proofs." + rest[: -len(".antt")].replace("/", ".")
            line = re.escape(module) + r"\.\{[^}]*(?<![\w'-])" + name + r"(?![\w'-])[^}]*\}"
            if here or re.search(line, text):
                done = re.sub(r"(?<![\w'.-])" + name + r"(?![\w'-])", name + "_lem", done)
        if done != text:
            with open(path, "w", encoding="utf-8") as f:
                f.write(done)


def main(argv):
    root = argv[0] if argv else "."
    with_lemmas(root)
    names = own_names(root)
    new = list(names.values())
    twice = sorted(n for n in names if new.count(names[n]) > 1)
    if twice:
        print("fall together: " + ", ".join(twice), file=sys.stderr)
        return 1
    for path in files(root, (".antt", ".rt")):
        with open(path, encoding="utf-8") as f:
            text = f.read()
        if path.endswith(".antt"):
            done = respelt(text, "--", names)
        else:
            done = clauses(text, names)
        if done != text:
            with open(path, "w", encoding="utf-8") as f:
                f.write(done)
    return 0


def clauses(text, names):
    """In a source only the clauses and the `ghost use` lines name what specs/ declares."""
    out, inside = [], 0
    for line in text.split("\n"):
        code, comment = parts(line, "//")
        starts = re.match(r"\s*(requires|ensures|invariant|ghost)\b", code)
        if inside or starts:
            out.append("".join(names.get(t, t) for t in TOKEN.findall(code)) + comment)
            inside += code.count("{") - code.count("}")
            inside = max(inside, 0)
        else:
            out.append(line)
    return "\n".join(out)


if __name__ == "__main__":
    raise SystemExit(main(sys.argv[1:]))
