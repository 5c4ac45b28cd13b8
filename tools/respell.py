#!/usr/bin/env python3
"""Brings the names of this repository's own definitions and lemmas to the spelling that today's Rattle has: words in
snake case, facts and types in camel case. Run it once, at the top, right after the kit's port.py.

    tools/respell.py           respells, and lists old and new names
    tools/respell.py --list    only lists them

A name is ours where a file of specs/ or proofs/ declares it. Names of goals, which Rattle makes, stay; so do functions of
src/, strings and comments. A new name that already means something else in these crates is reported, and nothing is changed.
"""
import glob, re, sys

WORD = r"[^\W\d][\w'-]*"
DECLARED = re.compile(r"\s*(?:(?:abbrev|unfoldable|pub|record|data)\s+)*(" + WORD + r")\s*(?:[({].*)?:\s(.*)")


def sources(*folders):
    found = []
    for folder in folders:
        found += glob.glob(f"crates/*/{folder}/**/*", recursive=True)
    return sorted(f for f in found if f.endswith((".rt", ".antt")))


def respelled(name):
    if name[0].isupper():
        return "".join(part[0].upper() + part[1:] for part in re.split("[-_]", name))
    return name.replace("-", "_")


def is_old(name):
    return "-" in name or (name[0].isupper() and "_" in name)


def declared():
    names = set()
    for path in sources("specs", "proofs"):
        for line in open(path, encoding="utf-8"):
            m = DECLARED.match(line)
            if m and not line.strip().startswith("--") and "goal." not in m.group(2):
                names.add(m.group(1))
    return names


# Cuts a line into what is code and what is a string or a comment.
def pieces(path, line):
    comment = "//" if path.endswith(".rt") else "--"
    out, at, start = [], 0, 0
    while at < len(line):
        if line[at] == '"':
            end = at + 1
            while end < len(line) and line[end] != '"':
                end += 2 if line[end] == "\\" else 1
            end = min(end + 1, len(line))
            out += [(True, line[start:at]), (False, line[at:end])]
            at = start = end
        elif line.startswith(comment, at) and (at == 0 or line[at - 1] == " "):
            return out + [(True, line[start:at]), (False, line[at:])]
        else:
            at += 1
    return out + [(True, line[start:])]


# variables, which no line declares
BOUND = {"off-kva"}
# fields of plain records, which may well be named as the fields of the structs that they mirror
MIRRORED = {"off_peak_kva", "off_peak_kwh"}

TOKEN = re.compile(r"(?<![\w'-])" + WORD + r"(?![\w'-])")
# a word on its own: no part of a path, no field behind a dot or of a record that is made
ALONE = re.compile(r"(?<![\w'.«-])(?<!, )(?<!\{ )(?<!; )" + WORD + r"(?![\w'.»-])|(?<=, |\{ |; )" + WORD + r"(?![\w'.»-]| =)")


def code_words(paths):
    words = {}
    for path in paths:
        for line in open(path, encoding="utf-8"):
            for code, text in pieces(path, line):
                if code:
                    for w in ALONE.findall(text):
                        words.setdefault(w, set()).add(path)
    return words


def main():
    names = sorted({n for n in declared() if is_old(n)} | BOUND)
    new = {n: respelled(n) for n in names}
    words = code_words(sources("specs", "proofs"))
    clauses = {}
    for path in sources("src"):
        for line in open(path, encoding="utf-8"):
            if re.match(r"\s*(ghost use|requires|ensures|ghost)\b", line):
                for w in ALONE.findall(line):
                    clauses.setdefault(w, set()).add(path)
    bad = [f"{o} -> {n}: stands in {sorted(words.get(n, set()) | clauses.get(n, set()))[0]}" for o, n in new.items() if n not in MIRRORED and (n in words or n in clauses)]
    both = [n for n in set(new.values()) if list(new.values()).count(n) > 1]
    for o, n in new.items():
        print(f"{o} {n}")
    for line in bad:
        print("falls together:", line, file=sys.stderr)
    for n in both:
        print("two names become", n, file=sys.stderr)
    if "--list" in sys.argv[1:]:
        return
    if bad or both:
        sys.exit("nothing was changed")
    for path in sources("specs", "proofs", "src"):
        text = open(path, encoding="utf-8").read()
        out = []
        for line in text.split("\n"):
            out.append("".join(TOKEN.sub(lambda m: new.get(m.group(0), m.group(0)), t) if code else t for code, t in pieces(path, line)))
        if "\n".join(out) != text:
            open(path, "w", encoding="utf-8").write("\n".join(out))


main()
