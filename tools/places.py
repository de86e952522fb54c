#!/usr/bin/env python3
"""Finds the places of src/ that read like an older language, by point of docs/DESIGN-PASS.md.

    tools/places.py [POINT]      every place, or those of one point, and how many there are
    tools/places.py --counts     the counts alone, a line for each point and crate

A place is a line that fits a pattern of its point; for point 5 it is a set of parameters, or the words of a clause, that three or more
functions have. Lines beside or below a comment that begins with `Stays:` are told apart: they are kept for the reason that it gives."""
import itertools
import pathlib
import re
import sys

ROOT = pathlib.Path(__file__).resolve().parent.parent

PATTERNS = {
    "1": [
        ("a number for none", r"\bNONE\b"),
        ("a flag beside a value", r"\bwith_[pq]: bool|^\s*walking: bool,$"),
        ("a number for a kind or refusal", r"fn (number|zeros)\(self\)"),
        ("a Result or an Option taken apart to make another", r"None => (return )?(Err|None)|Err\(\w*\) => (return )?(Err|None)|let (Ok|Some)\([^)]*\)+ = .*else \{$|Ok\((\w+)\) => (return )?(Ok|Some)\(\3\)"),
    ],
    "2": [
        ("twins", r"fn (along_[xy]|nearest_quotient|cut_quotient|width_of|height_of|low_at|high_at|begin_of|end_of|add_marks|note_points|marks_end|group_end|is_before)\b|fn (first|second)_end<|fn plain\(p: IntPoint|fn point\(x: i32"),
    ],
    "3": [
        ("an index counted by hand", r"^\s*while .*(<|>|<=|>=) |^\s*while !|for [a-z]\w* in (0|\w+ \+ 1)\.\."),
    ],
    "4": [
        ("equality, order, copying or conversion by hand", r"fn (is|is_before|is_smaller|is_equal|compare|compare_points|has_between|zeros|number|in_range|plain|edge|linked_to|is_walking|is_clean|in_order|copy_places|reason|narrowed|zero_point)\((self|&self|p|a|s|f|seg|state|i|from|fault|number: i64|\))|fn copy_places<|fn edge<"),
        ("printing by hand", r"=> \"\w+\","),
    ],
    "6": [
        ("a length beside a buffer", r"\bused: (&mut )?usize|\broom: usize|\bcount: usize,$"),
        ("an arena of indices, or parallel lists", r"\bnext: usize|heads: .*usize|turned: Vec"),
        ("a search by hand", r"let middle = |fn (place|found)<|fn cut_at"),
    ],
    "7": [
        ("a switch on which step to run", r"match (stage|course|job|kind|state)\b|trait PairVisitor"),
    ],
}


def sources():
    for path in sorted(ROOT.glob("crates/*/src/**/*.rt")):
        yield path, path.read_text(encoding="utf8").splitlines()


def code(line):
    return line.split("//")[0] if not line.lstrip().startswith("ghost ") else ""


def stays(lines, at):
    """Whether the line, or the comment or attribute lines right above it, say that the place stays."""
    if "Stays:" in lines[at]:
        return True
    at -= 1
    while at >= 0 and re.match(r"\s*(//|#\[)", lines[at]):
        if "Stays:" in lines[at]:
            return True
        at -= 1
    return False


def by_pattern(point):
    for path, lines in sources():
        for at, line in enumerate(lines):
            text = code(line)
            for what, pattern in PATTERNS[point]:
                if text.strip() and re.search(pattern, text):
                    yield path, at + 1, what, line.strip(), stays(lines, at)
                    break


FUNCTION = re.compile(r"^\s*(?:pub(?:\(crate\))? )?(?:const )?fn (\w+)(?:<[^(]*>)?\(([^{;]*?)\)\s*(?:->[^{;]*?)?((?:\n\s*(?:requires|ensures|where)[^\n]*)*)\n?\s*[{;]", re.S | re.M)


def functions():
    for path, lines in sources():
        text = "\n".join(code(line) if "ghost" not in line else line for line in lines)
        for found in FUNCTION.finditer(text):
            name, params, clauses = found.group(1), found.group(2), found.group(3)
            names = sorted(set(re.findall(r"(?:^|[,(]\s*|\n\s*)(\w+): ", params)) - {"rt", "heap", "self"})
            yield path, text[: found.start(1)].count("\n") + 1, name, names, [c.split("{", 1)[-1].strip(" }") for c in clauses.splitlines() if "requires" in c]


def travelling():
    crates = {}
    for path, line, name, names, clauses in functions():
        crates.setdefault(path.relative_to(ROOT).parts[1], []).append((path, line, name, names, clauses))
    for crate, all_of in sorted(crates.items()):
        groups = {}
        for path, line, name, names, clauses in all_of:
            for size in range(2, len(names) + 1):
                for group in itertools.combinations(names, size):
                    groups.setdefault(group, set()).add((path, name))
        wide = {g: f for g, f in groups.items() if len(f) >= 3}
        largest = [g for g in wide if not any(set(g) < set(h) and len(wide[h]) == len(wide[g]) for h in wide)]
        for group in sorted(largest):
            yield crate, "parameters " + ", ".join(group), sorted(name for _, name in wide[group])
        facts = {}
        for path, line, name, names, clauses in all_of:
            for clause in clauses:
                facts.setdefault(clause, set()).add((path, name))
        for clause, of in sorted(facts.items()):
            if len(of) >= 3:
                yield crate, "fact " + clause, sorted(name for _, name in of)


def main(arguments):
    counts_only = "--counts" in arguments
    points = [a for a in arguments if a in PATTERNS or a == "5"] or sorted([*PATTERNS, "5"])
    for point in points:
        found, kept, per_crate = 0, 0, {}
        if point == "5":
            for crate, what, of in travelling():
                found += 1
                per_crate[crate] = per_crate.get(crate, 0) + 1
                if not counts_only:
                    print(f"5  {crate}: {what}  in {', '.join(of)}")
        else:
            for path, number, what, line, kept_here in by_pattern(point):
                found += 1
                kept += kept_here
                crate = path.relative_to(ROOT).parts[1]
                per_crate[crate] = per_crate.get(crate, 0) + 1
                if not counts_only:
                    print(f"{point}  {path.relative_to(ROOT)}:{number}: {what}{' (stays)' if kept_here else ''}: {line}")
        each = ", ".join(f"{crate} {n}" for crate, n in sorted(per_crate.items()))
        print(f"point {point}: {found} places, {kept} told to stay ({each})")


main(sys.argv[1:])
