#!/usr/bin/env python3
"""Spells the names of this repository's own definitions and lemmas in snake case, and facts, that is functions into Type 0, in camel case.

usage: python3 tools/spell_names.py        at the top of the repository, once, after the library's own names were spelled anew
       python3 tools/spell_names.py -n     the same, but nothing is written

Names from the Rust source, exported names, strings, names that Rattle makes and names of the library keep their spelling. A line that
begins 'together:' names two that would fall together in a file; spell_names_other.py gives one of them another name.
"""
import os
import re
import sys
from collections import defaultdict

sys.dont_write_bytecode = True
from spell_names_other import OTHER, OTHER_IN

ROOT = "."

TOKEN = re.compile(r"[^\s(){};,.\"@«»\\]+")
DECLARED = re.compile(r"^ *(?:(?:abbrev|unfoldable|pub|ruleset) +)*([^\s:(){}=]+) *:(?= |$)", re.M)
FUNCTION = re.compile(r"/proofs/(?:.*/)?Proof\.antt$")


def is_odd(name):
    return bool(re.match(r"^[A-Za-z][\w'′₀-₉]*(-[\w'′]+)+$", name) or re.match(r"^[a-z][a-z0-9_]*[A-Z]", name) or "′" in name)


def plain(name):
    name = name.replace("′", "'")
    if name in OTHER:
        return OTHER[name]
    name = re.sub(r"(?<=[a-z0-9])([A-Z])(?=[A-Z]*[a-z0-9]|$)", lambda m: "_" + m[1].lower(), name) if name[:1].islower() else name
    return name.replace("-", "_")


def texts():
    for folder, dirs, files in os.walk(os.path.join(ROOT, "crates")):
        dirs[:] = sorted(d for d in dirs if d != "out")
        for f in sorted(files):
            if f.endswith((".antt", ".rt")):
                yield os.path.join(folder, f)


def own_path(path, mine):
    steps = path.split(".")
    return steps[0] == "Rattle" and len(steps) > 1 and steps[1] in mine


def code_parts(text, antt):
    """The text in pieces, each with whether it is code: a comment is none, but what stands in backticks there is."""
    mark = "--" if antt else "//"
    for line in text.split("\n"):
        at = line.find(mark)
        if at >= 0 and (not antt or at == 0 or line[at - 1] in " ("):
            yield line[:at], True
            for i, part in enumerate(re.split(r"(`[^`]*`)", line[at:])):
                if part:
                    yield part, i % 2 == 1
        else:
            yield line, True
        yield "\n", False


def imports(text, mine):
    """Names and aliases that a file has from outside the repository, and those that it has from its own crates."""
    outside, inside, aliases = set(), set(), set()
    for m in re.finditer(r"\buse ([^\s;{]+?)\.?(?:\{([^}]*)\})?(?: as ([^\s;]+))?;?[ \t]*$", text, re.M):
        path, names, alias = m[1], m[2], m[3]
        own = own_path(path, mine)
        made = own and re.search(r"\.specs\.(declared|contracts)\b", path)
        for n in (names or "").split(","):
            n = n.strip().split(" as ")
            for x in n:
                if x.strip():
                    (inside if own and not made else outside).add(x.strip())
        if alias:
            (inside if own else aliases).add(alias)
    return outside, inside, aliases


def rename_files():
    """No file of specs/ may be called Contracts: those are Clauses. A file of proofs/ called Answers is a function's: codes has another."""
    at = os.path.join(ROOT, "crates/codes/proofs/Answers.antt")
    if os.path.exists(at):
        os.rename(at, at.replace("Answers", "CodeAnswers"))
    for crate in sorted(os.listdir(os.path.join(ROOT, "crates"))):
        at = os.path.join(ROOT, "crates", crate, "specs", "Contracts.antt")
        if os.path.exists(at):
            os.rename(at, at.replace("Contracts", "Clauses"))
    for p in texts():
        t = open(p, encoding="utf-8").read()
        new = re.sub(r"(?<=\.specs\.)Contracts\b|(?<=^pub mod )Contracts$", "Clauses", t, flags=re.M)
        new = re.sub(r"(?<=codes\.proofs\.)Answers\b|(?<=^mod )Answers$|(?<=^pub mod )Answers$", "CodeAnswers", new, flags=re.M)
        if new != t:
            open(p, "w", encoding="utf-8").write(new)


def pages(table):
    """Names in backticks in the pages."""
    at = [os.path.join(ROOT, "README.md")] + [os.path.join(ROOT, "docs", f) for f in sorted(os.listdir(os.path.join(ROOT, "docs"))) if f.endswith(".md")]
    for p in at:
        t = open(p, encoding="utf-8").read()
        new = re.sub(r"`[^`\n]*`", lambda m: "`" + TOKEN.sub(lambda k: table.get(k[0], k[0]), m[0][1:-1]) + "`", t)
        new = re.sub(r"(specs/)Contracts\.antt", r"\1Clauses.antt", new)
        if new != t:
            open(p, "w", encoding="utf-8").write(new)


def main():
    if "-n" not in sys.argv:
        rename_files()
    mine = sorted(os.listdir(os.path.join(ROOT, "crates")))
    files = {p: open(p, encoding="utf-8").read() for p in texts()}
    declared, facts = set(), set()
    for p, t in files.items():
        if not p.endswith(".antt") or FUNCTION.search(p):
            continue
        code = "".join(s for s, c in code_parts(t, True) if c or s == "\n")
        for m in DECLARED.finditer(code):
            declared.add(m[1])
            kind = re.match(r".*", code[m.end():])[0]
            if m[1][:1].islower() and re.search(r"(^|→ )Type 0$", kind.strip()):
                facts.add(m[1])
    table = {n: plain(n) for n in declared if is_odd(n) or n in OTHER}
    for n in facts:
        table[n] = OTHER.get(n, "".join(w[:1].upper() + w[1:] for w in re.split(r"[-_]", re.sub(r"(?<=[a-z0-9])([A-Z])", r"_\1", n))))
    by_new = defaultdict(set)
    for n, w in table.items():
        by_new[w].add(n)
    said, changed, written = [], 0, 0
    for p, t in files.items():
        antt = p.endswith(".antt")
        outside, inside, aliases = imports(t, mine)
        function = bool(FUNCTION.search(p))
        parts, met = [], defaultdict(set)
        for s, code in code_parts(t, antt):
            if not code:
                parts.append(s)
                continue

            def turn(m):
                nonlocal changed
                w = m[0]
                before = s[:m.start()]
                dotted = before.endswith(".")
                new = OTHER_IN.get((p.split("/crates/")[1].split("/")[0], w)) or table.get(w)
                if new is None and not function and re.match(r"^[a-z][a-z0-9]*[A-Z]", w) and w not in outside:
                    new = plain(w)
                if new is None or new == w or w in outside:
                    if not dotted:
                        met[w].add(w)
                    return w
                if function:
                    head = re.search(r"([^\s(){};,.]+)\.$", before)
                    if w not in inside and not (dotted and head and head[1] in inside):
                        return w
                if dotted:
                    head = re.search(r"([^\s(){};,.]+)\.$", before)
                    if head and head[1] in aliases:
                        return w
                else:
                    met[new].add(w)
                changed += 1
                return new

            parts.append(TOKEN.sub(turn, s))
        for w, olds in met.items():
            if len(olds) > 1:
                said.append(f"together: {w}: {', '.join(sorted(olds))} in {p}")
        new = "".join(parts)
        new = new[:-1] if new.endswith("\n") and not t.endswith("\n") else new
        if len(new) == len(t) + 1 and new.endswith("\n\n"):
            new = new[:-1]
        if new != t:
            written += 1
            if "-n" not in sys.argv:
                open(p, "w", encoding="utf-8").write(new)
    print("\n".join(sorted(said)))
    print(f"{len(table)} names, {changed} places in {written} files")
    if "-n" not in sys.argv:
        pages(table)
    print("facts:", " ".join(sorted(f"{n}={table[n]}" for n in facts)))


main()
