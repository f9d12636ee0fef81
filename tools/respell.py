#!/usr/bin/env python3
"""Brings the names that this repository's specs/ and proofs/ declare to one spelling: words in snake case, types in camel case.

usage: python3 tools/respell.py [--dry] [--names]     at the top of the repository, once, right after the toolchain's own upgrade script

It turns the definitions, constructors, fields and lemmas that the .antt files declare, wherever .antt files and the clauses of .rt
files cite them. Rust items, strings of .rt files, comments and names that a file imports from the library stay. A line 'look:' names
two names that become one, or a new name that already stands for something else in a file that gets it: read that place. --dry writes
nothing, --names prints each name and what it becomes.
"""

import collections
import os
import re
import sys

WORD = re.compile(r"[^\s(){}\[\];,.\"@`λ]+")
OWN_PATH = re.compile(r"^\s*(?:pub\s+|ghost\s+)*use\s+Rattle\.(\w+)\.")
# Local helpers of proofs whose new name would be that of a definition.
APART = {"all-user": "users_through", "with-found": "found_then", "written-here": "stands_as_written"}
PARTS = re.compile(r"[A-Z]?[a-z0-9']+|[A-Z]+(?![a-z])|[A-Z]")


def new_name(name):
    if name in APART:
        return APART[name]
    if name[0].isupper():
        return "".join(p[:1].upper() + p[1:] for p in name.split("-"))
    words = []
    for part in name.split("-"):
        for piece in part.split("_"):
            words += [w.lower() for w in PARTS.findall(piece)] if re.search(r"[a-z0-9][A-Z]", piece) else [piece]
    return "_".join(words)


def is_old(name):
    return bool(re.match(r"^[A-Za-z][\w']*(-[\w']+)*$", name)) and ("-" in name or (name[0].islower() and re.search(r"[a-z0-9][A-Z]", name)))


def comment_free(text):
    return re.sub(r"--.*", lambda m: " " * len(m[0]), text)


def declared(path, text):
    """The names that a file declares: of the files beside a proof's goals only those that are not pub, since the goals' names are made."""
    goals = path.count(os.sep) > 3 and os.sep + "proofs" + os.sep in path
    out = set()
    lines = comment_free(text).split("\n")
    for i, line in enumerate(lines):
        m = re.match(r"\s*((?:(?:pub|abbrev|opaque|unfoldable|instance)\s+)*)(?:(?:record|data)\s+)?([^\s:(){},.=|]+)((?:\s+[^=\s:][^=:]*)?)\s*:(?:\s|$)", line)
        if not m:
            m = re.match(r"\s*((?:(?:pub|abbrev|opaque|unfoldable|instance)\s+)*)([^\s:(){},.=|]+)()\s*$", line)
            if m and not (i + 1 < len(lines) and lines[i + 1].lstrip().startswith(":")):
                m = None
        if not m or m[2] in ("use", "mod", "module", "let", "where"):
            continue
        if goals and "pub" in m[1]:
            continue
        out.add(m[2])
        out.update(w for w in m[3].split() if re.match(r"^[A-Za-z][\w'-]*$", w)) if not line.strip().startswith(("record", "pub record", "data", "pub data")) else None
    return out


def imported(text, crates):
    """The names that a file takes from elsewhere than this repository."""
    out = set()
    for line in text.split("\n"):
        m = re.match(r"\s*(?:pub\s+|ghost\s+)*use\s+(\S+)\.\{(.*)\}", line)
        if m:
            own = OWN_PATH.match(line)
            if not (own and own[1] in crates):
                for item in m[2].split(","):
                    out.add(item.split(" as ")[-1].strip())
                    out.add(item.split(" as ")[0].strip())
    return out


def files(root):
    for folder, dirs, names in os.walk(os.path.join(root, "crates")):
        dirs[:] = sorted(d for d in dirs if d not in ("out", ".git"))
        for f in sorted(names):
            if f.endswith((".antt", ".rt")):
                yield os.path.relpath(os.path.join(folder, f), root)


def code_of(path, text):
    """Where names may be turned: all of an .antt file but its comments; of an .rt file its clauses and ghost lines."""
    spans = []
    if path.endswith(".antt"):
        at = 0
        for m in re.finditer(r"--.*", text):
            spans.append((at, m.start()))
            at = m.end()
        spans.append((at, len(text)))
        return spans
    for m in re.finditer(r"^[ \t]*(?:pub(?:\([^)]*\))? )?(?:ghost\b|requires\b|ensures\b|prove!)", text, re.M):
        depth, k = 0, m.end()
        while k < len(text):
            if text[k] == "{" or text[k] == "(":
                depth += 1
            elif text[k] == "}" or text[k] == ")":
                depth -= 1
                if depth == 0:
                    break
            elif text[k] == ";" and depth == 0:
                break
            k += 1
        spans.append((m.start(), k + 1))
    return spans


def main(argv):
    root = "."
    paths = list(files(root))
    crates = set(os.listdir("crates"))
    texts = {p: open(p, encoding="utf-8").read() for p in paths}
    own = set()
    for p in paths:
        if p.endswith(".antt"):
            own |= declared(p, texts[p])
    turn = {n: new_name(n) for n in sorted(own) if is_old(n) and new_name(n) != n}
    back = collections.defaultdict(list)
    for a, b in turn.items():
        back[b].append(a)
    for b, olds in back.items():
        if len(olds) > 1:
            print(f"look: {' and '.join(olds)} both become {b}")
    for b in back:
        if b in own:
            print(f"look: {back[b][0]} becomes {b}, which is declared too")
    changed = 0
    for p in paths:
        t = texts[p]
        foreign = imported(t, crates)
        here = {w for a, b in code_of(p, t) for w in WORD.findall(t[a:b])}
        mine = {a: b for a, b in turn.items() if a in here and a not in foreign}
        for a, b in mine.items():
            if b in here:
                print(f"look: {p}: {a} becomes {b}, which stands there")
        out, at = [], 0
        for a, b in code_of(p, t):
            if a < at:
                continue
            out.append(t[at:a])
            out.append(WORD.sub(lambda m: mine.get(m[0], m[0]), t[a:b]))
            at = b
        out.append(t[at:])
        new = "".join(out)
        if new != t:
            changed += 1
            if "--dry" not in argv:
                open(p, "w", encoding="utf-8").write(new)
    print(f"respell: {len(turn)} names, {changed} files")
    if "--names" in argv:
        for a, b in turn.items():
            print(f"{a} -> {b}")
    return 0


if __name__ == "__main__":
    raise SystemExit(main(sys.argv[1:]))
