#!/usr/bin/env python3
"""respell.py [--table]: brings the crates' own definitions and lemmas to snake case, as `laneTables` and `over-length` to `lane_tables` and
`over_length`.

It reads the declarations of specs/ and proofs/, makes a table of those names that have a dash or a capital inside, and turns each whole word of the
table in .antt files, in the clauses of .rt files, in edits and in code spans of .md files. Types, modules, functions of src/ and names that the kit
makes stay. --table prints the table and what would fall together, and writes nothing. A second run changes nothing.
"""
import collections
import glob
import re
import sys

WORD = re.compile(r'[^\s(){}.;,@"«»`]+')
MODIFIERS = r"(?:(?:pub|abbrev|unfoldable|data|record|private|instance) )*"
DECLARED = re.compile(rf"^(\s*){MODIFIERS}((?:{WORD.pattern} )+):(?=\s|$)(.*)$")
# What the kit makes of a function's code, and the theorem of a function.
MADE = re.compile(r"(tie|goal)\.|statement\b|\{M : Type 1\} → statement")
KIT = re.compile(r"use ([\w.◌]+)\.\{([^}]*)\}")


def read(path):
    with open(path, encoding="utf-8") as f:
        return f.read()


# Lemmas and fields whose name a definition gets: they take `_law` in the files that declare or import them.
LAWS = {
    "box_in": ["accuracy/proofs/Index", "accuracy/proofs/Theorem"],
    "ends_of": ["tables/specs/Opening"],
    "first_by": ["replies/specs/Written"],
    "lane_count": ["plan_scan/specs/Parts"],
    "no_place": ["advance/specs/Cases"],
    "one_lane": ["route_promise/specs/Promise", "route_promise/proofs/Theorem"],
    "ring_of": ["network/specs/Found"],
    "too_short": ["plan_format/specs/Cases"],
    "units_of": ["exact/specs/Values", "exact/specs/Order", "exact/specs/Arithmetic", "exact/specs/Monotone", "geometry_laws/proofs/Lengths"],
    "up_by": ["float/proofs/Wholes", "float/proofs/whole/up/Proof"],
    "whole_in": ["plan/specs/Checking"],
}


def files(*patterns):
    return sorted(p for pattern in patterns for p in glob.glob(pattern, recursive=True) if "/out/" not in p)


def crates():
    return {p.split("/")[1] for p in glob.glob("crates/*/")}


def snake(word):
    word = re.sub(r"^getD(?![a-z])", "get_or", word).replace("-", "_")
    # a capital that stands alone between underscores is a variable's name, as in `U_huge`
    word = re.sub(r"(?<=[a-z0-9])([A-Z]+)", lambda m: "_" + m[1].lower(), word)
    return word.replace("′", "'")


def declared():
    names = collections.defaultdict(set)
    for path in files("crates/*/specs/**/*.antt", "crates/*/proofs/**/*.antt"):
        lines = read(path).split("\n")
        for i, line in enumerate(lines):
            m = DECLARED.match(line)
            if not m or line.lstrip().startswith("--"):
                continue
            kind = m[3].strip() or (lines[i + 1].strip() if i + 1 < len(lines) else "")
            if MADE.match(kind):
                continue
            for name in m[2].split():
                names[name].add(path)
    return names


def table(names, own):
    turned = {}
    kit = collections.defaultdict(set)
    for path in files("crates/**/*.antt", "crates/**/*.rt"):
        text = read(path)
        for name in set(WORD.findall(text)) & set(names):
            kit[name] |= imported(text, own)
    for name in names:
        if name[0].isupper() and not re.match(r"U+-", name) or name[0] == "◌":
            continue
        if "-" in name or "′" in name or re.search(r"[a-z0-9][A-Z]", name):
            turned[name] = snake(name)
    # Where a lemma with a dash falls together with a definition, or with a name that its files have from the kit, the lemma takes `_law`.
    definitions = {new for old, new in turned.items() if "-" not in old} | set(names)
    for old, new in turned.items():
        if "-" in old and new in definitions | kit[old]:
            turned[old] = new + "_law"
    return turned


def imported(text, own):
    """The names that a file has from the kit."""
    found = set()
    for path, items in KIT.findall(text):
        parts = path.split(".")
        if parts[0] == "Rattle" and parts[1] in own:
            continue
        for item in items.split(","):
            found.update(item.replace(" as ", " ").split())
    return found


def turn(text, turned, kept, made_by):
    def word(m):
        w = m[0]
        before = text[max(0, m.start() - 40):m.start()]
        if w in kept or re.search(made_by, before):
            return w
        if w in turned:
            return turned[w]
        return w

    return WORD.sub(word, text)


def quiet(text, change):
    """`change` over what is no string."""
    parts = re.split(r'("(?:[^"\\\n]|\\.)*")', text)
    return "".join(p if i % 2 else change(p) for i, p in enumerate(parts))


def spans(text, change):
    return re.sub(r"`[^`\n]+`", lambda m: change(m[0]), text)


def main():
    own = crates()
    names = declared()
    turned = table(names, own)
    if "--table" in sys.argv:
        groups = collections.defaultdict(set)
        for old, new in turned.items():
            groups[new].add(old)
            if new in names:
                groups[new].add(new)
        for new, olds in sorted(groups.items()):
            if len(olds - {o for o in olds if o in LAWS}) > 1:
                print("together:", new, *(f"{o} {sorted(names[o])}" for o in sorted(olds)), sep="\n    ")
        for path in files("crates/**/*.antt", "crates/**/*.rt"):
            words = set(WORD.findall(read(path)))
            kit = imported(read(path), own)
            for old in words & set(turned):
                if old not in kit and turned[old] in words and turned[old] not in names and path.endswith(".antt"):
                    print("stands:", turned[old], path)
        for old in sorted(turned):
            print(old, turned[old], sep="\t")
        return
    count = 0
    respelled = not turned
    for path in files("crates/**/*.antt", "crates/**/*.rt", "crates/**/*.edit", "README.md", "docs/**/*.md"):
        text = read(path)
        kept = imported(text, own)
        laws = {name for name, places in LAWS.items() if path[len("crates/") : -len(".antt")] in places and not respelled}
        here = {**turned, **{name: name + "_law" for name in laws}}
        if path.endswith(".md"):
            new = spans(text, lambda t: turn(t, here, set(), r"(?!)"))
        else:
            # behind these a name is made by the kit
            made_by = r"(tie\.(Need-)?|goal\.)$" if path.endswith(".antt") else r"(?!)"
            new = quiet(text, lambda t: turn(t, here, kept, made_by))
        if new != text:
            count += 1
            with open(path, "w", encoding="utf-8") as f:
                f.write(new)
    print(f"respelled: {len(turned)} names, {count} files")


main()
