#!/usr/bin/env python3
"""Spells this repository's own definitions and lemmas as today's Rattle does: words in snake case, types in camel case.

usage: python3 tools/spell_names.py [--dry]    at the top of the repository, once, after the kit's own script of spelling

`count-below` becomes `count_below`, `Accepted-if` becomes `AcceptedIf`. Turned are the names with a dash that stand in specs/ and in the lemma files
of proofs/, wherever they are cited: there, in answers, in clauses of src/ and in must-fail edits. Left as they are: names of the library, names that the
check makes (`loop-i-preserved`), strings, comments. It stops where two names would fall together.
"""
import collections
import glob
import re
import sys

TOKEN = re.compile(r"[^\s(){}\[\],;.:\"|]+")
IMPORT = re.compile(r"\s*(?:ghost )?use Rattle\.std\..*\{(.*)\}")


def files(*patterns):
    return sorted({f for p in patterns for f in glob.glob(p, recursive=True) if "/out/" not in f})


LEMMAS = [f for f in files("crates/*/specs/**/*.antt", "crates/*/proofs/**/*.antt") if not f.endswith(("/Answers.antt", "/Invariants.antt"))]
ALL = files("crates/*/specs/**/*.antt", "crates/*/proofs/**/*.antt", "crates/*/src/**/*.rt", "crates/*/must-fail/*.edit")


def comment(f):
    return "//" if f.endswith(".rt") else "--"


def parts(line, mark):
    """The line's code, and the comment behind it."""
    at = re.search(r"(?:^|\s)" + re.escape(mark) + r"(?:\s|$)", line)
    return (line, "") if not at else (line[: at.start()], line[at.start() :])


def outside_strings(code, turn):
    return "".join(p if i % 2 else turn(p) for i, p in enumerate(re.split(r'("[^"]*")', code)))


def spelled(name):
    if name[0].isupper():
        return "".join(w[:1].upper() + w[1:] for w in name.split("-"))
    return name.replace("-", "_").replace("not_Earlier", "not_earlier")


def own_names():
    own, library, there = set(), set(), collections.defaultdict(set)
    for f in LEMMAS:
        for line in open(f, encoding="utf-8"):
            m = IMPORT.match(line)
            if m:
                library |= {n.strip() for n in m.group(1).split(",")}
                continue
            code = parts(line, "--")[0]
            words = TOKEN.findall(re.sub(r'"[^"]*"', "", code))
            own |= {w for w in words if re.search(r"[^\W\d]-\w", w) or re.fullmatch(r"◌?[\w]+-[\w]+◌?", w)}
            for w in words:
                there[w].add(f)
    return own - library, library, there


def main():
    own, library, there = own_names()
    turned = {n: spelled(n) for n in own}
    bad = False
    back = collections.defaultdict(list)
    for old, new in turned.items():
        back[new].append(old)
        shared = there.get(old, set()) & there.get(new, set())
        if new in library or shared:
            print(f"falls together: {old} and {new}: {sorted(shared)[:3]}")
            bad = True
        elif new in there:
            print(f"look: {old} becomes {new}, which stands elsewhere: {sorted(there[new])[:3]}")
    for new, olds in back.items():
        if len(olds) > 1:
            print(f"falls together: {olds}")
            bad = True
    if bad:
        return 1
    if "--dry" in sys.argv:
        for n in sorted(turned):
            print(n, turned[n])
        return 0
    for f in ALL:
        answers = f.endswith(("/Answers.antt", "/Invariants.antt"))

        def turn(text):
            def one(m):
                before = text[max(0, m.start() - 5) : m.start()]
                if answers and before.endswith(("goal.", " c.")):
                    return m.group(0)
                return turned.get(m.group(0), m.group(0))

            return TOKEN.sub(one, text)

        out = []
        for line in open(f, encoding="utf-8"):
            code, rest = parts(line, comment(f)) if not f.endswith(".edit") else (line, "")
            out.append((line if f.endswith(".edit") and line.startswith("file:") else outside_strings(code, turn) + rest))
        text = "".join(out)
        if text != open(f, encoding="utf-8").read():
            with open(f, "w", encoding="utf-8") as it:
                it.write(text)
    print(f"{len(turned)} names turned")
    return 0


if __name__ == "__main__":
    raise SystemExit(main())
