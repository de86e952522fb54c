#!/usr/bin/env python3
"""Spells the names that the crates' .antt files declare as today's Rattle does: `one-point` is `one_point`, `Inner-point` is `InnerPoint`.

usage: tools/respell.py        at the top of the repository, once, right after port.py

Only names with a dash that some file of ours declares are turned, and each in every .antt and .rt file and in every must-fail edit. Names of
the libraries, and the names that Rattle makes (goals, steps of a proof), stay. A name that meets another
word or name is told, and turned all the same: whoever runs it looks.
"""
import os
import re
import sys

TOKEN = r"[^\s(){}\[\].;,:@\"«»λ\\|]+"
DASHED = re.compile(r"(?<![\w?'◌])[A-Za-z][\w?'₀-₉⁻ℤℕ]*(?:-[\w?'₀-₉ℤℕ]+)+(?![\w?'◌])")
OURS = None


def files():
    for root, dirs, names in os.walk("crates"):
        dirs[:] = sorted(d for d in dirs if d != "out")
        for n in sorted(names):
            if n.endswith((".antt", ".rt", ".edit")):
                yield os.path.join(root, n)


def crates():
    return {d for d in os.listdir("crates") if os.path.isdir(os.path.join("crates", d))}


def imports(text):
    """(path, names) of each use line."""
    for m in re.finditer(r"\buse\s+([^\s;{]+?)(?:\.\{([^}]*)\}|;|\s|$)", text):
        yield m.group(1), [n.strip() for n in (m.group(2) or "").split(",") if n.strip()]


def is_ours(path):
    parts = path.split(".")
    return parts[0] == "Rattle" and len(parts) > 1 and parts[1] in OURS


def new(name):
    if name[0].isupper():
        parts = name.split("-")
        return parts[0] + "".join(p[:1].upper() + p[1:] for p in parts[1:])
    return name.replace("-", "_")


def is_generated_proof(path):
    """Files whose top-level names are goals: those in a folder below proofs/."""
    return re.match(r"crates/[^/]+/proofs/.+/[^/]+\.antt$", path) is not None


def declared(path, text):
    text = re.sub(r"--[^\n]*", "", text)
    found = set()
    # before a colon: declarations, fields, parameters, binders
    for m in re.finditer(r"([^:\n(){}=;,.]*?)\s:\s", text):
        for w in m.group(1).split():
            if DASHED.fullmatch(w):
                found.add(w)
    # heads with parameters, and constructors
    for m in re.finditer(r"\b(?:record|data|abbrev|unfoldable|pub|constructor)\s+(?=(" + TOKEN + "))", text):
        if DASHED.fullmatch(m.group(1)):
            found.add(m.group(1))
    # let, lambda, equations of records
    for m in re.finditer(r"\blet\s+(" + TOKEN + r")\s*(?::|=)", text):
        if DASHED.fullmatch(m.group(1)):
            found.add(m.group(1))
    for m in re.finditer(r"λ\s*([^.]*)\.", text):
        for w in re.split(r"[\s(){}:,]+", m.group(1)):
            if DASHED.fullmatch(w):
                found.add(w)
    if is_generated_proof(path):
        goals = set(re.findall(r"\bgoal\.(" + TOKEN + ")", text)) | set(re.findall(r"^(?:pub |abbrev )*(" + TOKEN + r") : goal\.", text, re.M))
        steps = set(re.findall(r"\b[cwl](?:\.[^\s.(){},;]+)*\.(" + TOKEN + ")", text))
        found -= goals | steps
    return found


def main():
    global OURS
    OURS = crates()
    texts = {p: open(p, encoding="utf-8").read() for p in files()}
    ours, library, all_words = set(), set(), set()
    for p, t in texts.items():
        if p.endswith(".antt"):
            ours |= declared(p, t)
        for path, names in imports(t):
            if not is_ours(path):
                library |= set(names)
        for m in re.finditer(TOKEN, t):
            all_words.add(m.group(0))
    # names that only equations of a lemma bind (arguments on the left of `=`)
    for p, t in texts.items():
        if p.endswith(".antt") and not is_generated_proof(p):
            for m in re.finditer(r"^( *[^=\n:]*?) =(?= |$)", re.sub(r"--[^\n]*", "", t), re.M):
                for w in re.split(r"[\s(){},.]+", m.group(1)):
                    if DASHED.fullmatch(w) and w not in library:
                        ours.add(w)
    ours -= library
    table, met = {}, {}
    for n in sorted(ours):
        met.setdefault(new(n), []).append(n)
    for to, froms in met.items():
        if to in all_words:
            print(f"meets: {froms} -> {to}")
        if len(froms) > 1:
            print(f"fall together: {froms} -> {to}")
        for n in froms:
            table[n] = to
    changed = 0
    for p, t in texts.items():
        out = DASHED.sub(lambda m: table.get(m.group(0), m.group(0)), t)
        if out != t:
            changed += 1
            if "--dry" not in sys.argv:
                with open(p, "w", encoding="utf-8") as f:
                    f.write(out)
    print(f"{len(table)} names, {changed} files")
    left = set()
    for p, t in texts.items():
        if p.endswith(".antt") and not is_generated_proof(p) or p.endswith(".rt"):
            for m in DASHED.finditer(re.sub(r"(--|//)[^\n]*", "", t)):
                if m.group(0) not in table and m.group(0) not in library:
                    left.add(m.group(0))
    print("left:", sorted(left))


main()
