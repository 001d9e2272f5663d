#!/usr/bin/env python3
"""places.py [COMMIT] [-l POINT]: counts the places of src/ that the design pass is about, as they stand in a commit, or in the work tree where
none is given.

One line for each count; -l 3 also lists the places of point 3. docs/DESIGN-PASS.md says what each point is. Points 2, 4 and 7 are lists of names,
since no pattern finds them: the page has those. Rows here are what patterns find.
"""
import re
import subprocess
import sys


def files(commit):
    """The .rt files of src/ and the Answers.antt files of proofs/, by path."""
    if commit:
        names = subprocess.run(["git", "ls-tree", "-r", "--name-only", commit, "crates"], capture_output=True, text=True, check=True).stdout
        read = lambda p: subprocess.run(["git", "show", f"{commit}:{p}"], capture_output=True, text=True, check=True).stdout
    else:
        names = subprocess.run(["git", "ls-files", "-co", "--exclude-standard", "crates"], capture_output=True, text=True, check=True).stdout
        read = lambda p: open(p).read()
    out = {}
    for p in names.split("\n"):
        if re.fullmatch(r"crates/\w+/src/.*\.rt|crates/\w+/proofs/.*\.antt", p):
            try:
                out[p] = read(p)
            except FileNotFoundError:
                pass
    return out


def signatures(text):
    """Each function: its line, its name, how many parameters it has, and the heads of the facts that it requires."""
    for m in re.finditer(r"(?m)^[ ]*(?:#\[[^\n]*\n[ ]*)*(?:pub )?(?:unsafe )?(?:extern \"C\" )?fn (\w+)[^(]*\(", text):
        depth, i, commas, some = 1, m.end(), 0, False
        while depth:
            c = text[i]
            depth += (c in "([{") - (c in ")]}")
            if c == "," and depth == 1:
                commas += 1
            some = some or c.isalnum()
            i += 1
        body = text[m.end() : i - 1]
        count = len([p for p in re.split(r",(?![^<(\[]*[>)\]])", body) if p.strip()])
        body_start = re.compile(r"\n *\{\n|;\n").search(text, i)
        head = text[i : body_start.start() if body_start else len(text)]
        facts = []
        for r in re.finditer(r"requires[^{]*\{(.*?)\}\s*(?=ensures|requires|$)", head, re.S):
            facts += re.findall(r"(?:^|×|\()\s*([A-Z]\w+) ", r.group(1))
        yield text.count("\n", 0, m.start()) + 1, m.group(1), count, facts


PATTERNS = [
    (1, "own enums and their cases", r"^\s*(pub )?enum \w+"),
    (1, "256 for none", r"return 256;|== 256|best = 256|= 256;|, 256\)"),
    (1, "numbers for refusals", r"\b(refuse|refused)\([a-z0-9.]+\)|number != 0|number: 0,|^\s*return [2-9];"),
    (1, "numbers for kinds, directions, sides", r"\b(kind|which|direction|side|case) [!=]= \d|\[6 \* i \+ 2\] != 2"),
    (1, "a flag with a value beside", r"^\s*pub (ok|found|given|more|any|full): bool"),
    (3, "while loops", r"^\s*while "),
    (3, "of these, a turn ends in `+= 1`, `-= 1` or another step by hand", None),
    (6, "arrays of a fixed length", r"= \[[\w.:]+; \d+\];|: \[[\w.:<>]+; \d+\]"),
    (7, "a number for which step to run", r"which: usize"),
]


def main():
    args = sys.argv[1:]
    show = args[args.index("-l") + 1] if "-l" in args else None
    rest = [a for i, a in enumerate(args) if a != "-l" and (i == 0 or args[i - 1] != "-l")]
    tree = files(rest[0] if rest else None)
    src = {p: s for p, s in tree.items() if "/src/" in p}
    for point, what, pattern in PATTERNS:
        hits = []
        for p, s in sorted(src.items()):
            if pattern:
                hits += [(p, s.count("\n", 0, m.start()) + 1, m.group(0).strip()) for m in re.finditer("(?m)" + pattern, s)]
            else:
                for m in re.finditer(r"(?ms)^( *)while [^\n]*\{\n(.*?)^\1\}", s):
                    if re.search(r"(?m)^\s*\w+ (\+=|-=) |\w+ = (at|rest) [+/]", m.group(2)):
                        hits.append((p, s.count("\n", 0, m.start()) + 1, "while"))
        print(f"{point} {what}: {len(hits)}")
        if show == str(point):
            for p, n, t in hits:
                print(f"    {p}:{n} {t}")
    many, facts, functions = [], {}, 0
    for p, s in sorted(src.items()):
        for line, name, count, needs in signatures(s):
            functions += 1
            if count >= 8:
                many.append((p, line, f"{name} ({count})"))
            for f in set(needs):
                facts.setdefault((f, p.split("/")[1]), []).append((p, line, name))
    print(f"5 functions of eight parameters or more: {len(many)} of {functions}")
    if show == "5":
        for p, n, t in many:
            print(f"    {p}:{n} {t}")
    often = {k: v for k, v in facts.items() if len(v) >= 3}
    print(f"5 facts that three or more functions of a crate require: {len(often)}, in {sum(len(v) for v in often.values())} contracts")
    if show == "5":
        for (f, c), v in sorted(often.items(), key=lambda x: -len(x[1])):
            print(f"    {f} in {c}: {', '.join(t for _, _, t in v)}")
    answers = sum(len(re.findall(r"(?m)^pub \S+ : goal\.", s)) for p, s in tree.items() if p.endswith("Answers.antt"))
    lines = sum(s.count("\n") for p, s in tree.items() if "/proofs/" in p)
    chains = sum(len(re.findall(r"(?m)^ +let \S+ = c\.\S+ in$", s)) for p, s in tree.items() if "/proofs/" in p)
    print(f"8 answers: {answers}; lines of proofs: {lines}; `let name = c.name in`: {chains}")


main()
