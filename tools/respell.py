#!/usr/bin/env python3
"""Respells the names of this repository's definitions and lemmas, after port.py, in the way of today's Rattle.

usage: python3 tools/respell.py [--dry]      at the top of the repository

Words are in snake case, types in camel case; a dash stays where it joins a symbol, as in `sumℕ-map-*`. Only names that the
repository's own .antt files declare are touched, and the names of clauses where proofs cite them. Names that Rattle makes
for goals and steps, names of Rattle's library, strings, comments and the code of src/ keep their spelling. A name that
stands between backticks in a comment or a page of docs/ follows.

It prints each name that changes, and where two names of one file become one. That is right for a definition and the module
or function of src/ that it speaks of, and for a field of a record and of a struct that share it; else it would be a mistake.
"""

import glob
import re
import sys

# what no rule covers
ODD = {"at_least_lem": "at_least"}
WORD = r"[^\s(){}\[\].,;:=→λ\"`\\|⌜⌝@]+"
TOKEN = re.compile(r'"(?:[^"\\]|\\.)*"|(?:--|//)[^\n]*|' + WORD + r"|.", re.S)
DECLARED = re.compile(r"^\s*(?:abbrev |unfoldable |axiom )*(?:pub )?(?:data |record )?(" + WORD + r")(?: +[({][^\n]*?[)}])* +:(?!=) ", re.M)
BINDERS = re.compile(r"[({]((?:" + WORD + r" )+):(?!=) |λ ((?:" + WORD + r" ?)+)\.(?=\s)|\blet (" + WORD + r") [:=]")


def antt_files():
    return sorted(glob.glob("crates/*/specs/**/*.antt", recursive=True) + glob.glob("crates/*/proofs/**/*.antt", recursive=True))


def rt_files():
    return sorted(glob.glob("crates/*/src/**/*.rt", recursive=True))


def respelt(name):
    if name in ODD:
        return ODD[name]
    if re.match(r"[A-Z]\w*-", name):
        # a fact or type: camel case
        return "".join(p[:1].upper() + p[1:] for p in name.split("-"))
    name = name.replace("getD", "get_or")
    name = re.sub(r"(?<=[A-Za-z0-9'])-(?=[A-Za-z0-9])", "_", name)
    if re.match(r"[A-Z]", name):
        return name
    return re.sub(r"(?<=[a-z])([A-Z])(?=[a-z]|$|_|-)", lambda m: "_" + m.group(1).lower(), name)


def own_names():
    """Each name that the own files declare or import by another name, but for the answers to goals, with those files."""
    found = {}
    for p in antt_files():
        text = open(p, encoding="utf-8").read()
        made = "/proofs/" in p and p.count("/") > 3
        for m in DECLARED.finditer(text):
            rest = text[m.end():].split("\n", 1)[0]
            if made and rest.lstrip().startswith(("goal.", "need.")):
                continue
            found.setdefault(m.group(1), set()).add(p)
        for m in BINDERS.finditer(text):
            for group in m.groups():
                for name in (group or "").split():
                    found.setdefault(name, set()).add(p)
    for p in antt_files() + rt_files():
        for line in re.findall(r"(?m)^(?:pub |ghost )*use [^\n]*", open(p, encoding="utf-8").read()):
            for name in re.findall(r" as (" + WORD + ")", line):
                found.setdefault(name, set()).add(p)
    return found


def clause_names():
    found = set()
    for p in rt_files():
        found |= set(re.findall(r"(?:ensures|requires)\*? (\w+) \{", open(p, encoding="utf-8").read()))
    return {n.replace("_", "-"): n for n in found if "_" in n}


def library_names(text):
    found = set()
    for m in re.finditer(r"use Rattle\.([\w.+-]+)\.\{([^}]*)\}", text):
        if m.group(1).split(".")[0] in OWN:
            continue
        for item in m.group(2).split(","):
            found.add(item.strip().split(" as ")[-1])
    return found


def turned(text, names):
    def one(m):
        t = m.group(0)
        if t[0] == '"':
            return t
        if t.startswith(("-- ", "//")):
            return re.sub(r"`([^`]+)`", lambda b: "`" + TOKEN.sub(one, b.group(1)) + "`", t)
        return names.get(t, t)

    return TOKEN.sub(one, text)


def cited_clauses(text, clauses, answers):
    """Where a proof cites a clause, or answers one in a record, the clause's own spelling."""
    text = re.sub(r"(\.(?:ensures|requires)\.)([a-z][\w-]*)", lambda m: m.group(1) + clauses.get(m.group(2), m.group(2)), text)
    if answers:
        text = re.sub(r"(?m)((?:[{;] |^ +))([a-z][\w-]*)(?= = )", lambda m: m.group(1) + clauses.get(m.group(2), m.group(2)), text)
    return text


def main():
    global OWN
    dry = "--dry" in sys.argv
    OWN = {p.split("/")[1] for p in antt_files() + rt_files()}
    owned = own_names()
    names = {n: respelt(n) for n in owned if respelt(n) != n}
    # names that fall together: in one file, two names that become one
    bad = []
    for p in antt_files() + rt_files():
        new = {}
        for n in set(re.findall(WORD, open(p, encoding="utf-8").read())):
            new.setdefault(names.get(n, n), set()).add(n)
        for n, olds in new.items():
            if len(olds) > 1:
                bad.append(f"{p}: {', '.join(sorted(olds))} would all be {n}")
    clauses = clause_names()
    for p in antt_files():
        text = open(p, encoding="utf-8").read()
        library = library_names(text)
        here = {o: n for o, n in names.items() if o not in library}
        for o, n in here.items():
            if n in library and re.search(r"(?<![\w'-])" + re.escape(o) + r"(?![\w'-])", text):
                bad.append(f"{p}: {o} would be {n}, which the file imports from the library")
        new = cited_clauses(turned(text, here), clauses, "/proofs/" in p and p.count("/") > 3)
        if new != text and not dry:
            open(p, "w", encoding="utf-8").write(new)
    for p in rt_files():
        text = open(p, encoding="utf-8").read()
        new = turned(text, names)
        if new != text and not dry:
            open(p, "w", encoding="utf-8").write(new)
    # pages: a name between backticks follows
    known = {respelt(n) for n in owned} | {n for n in owned}
    for p in ["README.md"] + sorted(glob.glob("docs/*.md")):
        if p in ("docs/PORT.md", "docs/PROGRAMS.md"):  # the second names words that the programs read
            continue
        text = open(p, encoding="utf-8").read()
        new = re.sub(r"`([^`\n]+)`", lambda b: "`" + re.sub(WORD, lambda m: respelt(m.group(0)) if respelt(m.group(0)) in known else m.group(0), b.group(1)) + "`", text)
        if new != text and not dry:
            open(p, "w", encoding="utf-8").write(new)
    for o, n in sorted(names.items()):
        print(f"{o} -> {n}")
    for b in bad:
        print("falls together: " + b)


if __name__ == "__main__":
    main()
