#!/usr/bin/env python3
"""Spells the repository's own definitions and lemmas as the library spells its own: words in snake case.

usage: python3 tools/respell.py [--map FILE] [FOLDER]

Run once, after the kit's port.py, in the folder of a repository (or on the FOLDER named). It renames what the .antt files
define, and the ghost members, aliases and bound variables beside them: a hump becomes an underscore (firstKey, first_key),
and so does a dash (at-rest, at_rest), but for a dash between the names of two definitions (length-big_endian). A lemma that
would have its function's name ends in _lem. Types, modules and variants keep their capitals; functions of src/, strings,
comments' plain words, inputs and outputs keep their text.
With --map it takes the names from FILE, old and new on a line, if FILE is there, and writes them into it otherwise, so that
two trees are spelled alike. It says which names would fall together in a file.
"""

import collections
import os
import re
import sys

TOKEN = re.compile(r"[^\s:(){}\[\].,;λ\"«»@`]+")
NAME = re.compile(r"^[A-Za-z][\w'-]*$")
HUMP = re.compile(r"(?<=[a-z0-9])(?=[A-Z])")
# words of the library that a lemma's name joins to the name of a definition
WORDS = set("length map take drop append set lt le".split())
# lemmas that port.py has spelled already, and that would have their function's name
SPELLED = set("split_at in_order first_leaf all_after first_key post_read".split())


def sources(root):
    for folder, dirs, files in os.walk(os.path.join(root, "crates")):
        dirs[:] = sorted(d for d in dirs if d not in ("out", "data"))
        for f in sorted(files):
            if f.endswith((".antt", ".rt")):
                yield os.path.join(folder, f)


def of_function(path):
    """Whether a proof file is that of one function: its own names are those that the checker asks for."""
    return "/proofs/" in path and path.endswith(("Answers.antt", "Invariants.antt", "Proof.antt"))


def plain(name):
    return NAME.match(name) and (("-" in name) or (name[0].islower() and HUMP.search(name)))


def defined(path, text):
    """The names that a file defines, binds or gives as an alias, and those of them that are definitions."""
    names, tops = set(), set()
    body = "\n".join(re.sub(r"(^|\s)--\s.*$", "", l) for l in text.split("\n"))
    if path.endswith(".rt"):
        for m in re.finditer(r"^\s*ghost ([\w']+)\s*[:=]", body, re.M):
            names.add(m[1])
        for m in re.finditer(r"\bas ([\w'-]+)", body):
            names.add(m[1])
        body = "\n".join(m[1] for m in re.finditer(r"\{([^{}]*λ[^{}]*)\}", body))
    else:
        words = r"^\s*(?:(?:pub|abbrev|unfoldable|private|data|record|ruleset)\s+)*([A-Za-z][\w' -]*?) :(?=\s)"
        for m in re.finditer(words, body, re.M):
            names.update(m[1].split())
            tops.update(m[1].split())
        for m in re.finditer(r"^\s*(?:pub |abbrev |unfoldable )*(?:data|record) ([\w'-]+)", body, re.M):
            names.add(m[1])
        for m in re.finditer(r"\bas ([\w'-]+)", body):
            names.add(m[1])
        for m in re.finditer(r"^\s*([A-Za-z][\w'-]*(?:\s[^=\n]*?)?) =(?=\s)", body, re.M):
            names.update(t for t in TOKEN.findall(m[1]))
        for m in re.finditer(r"\blet \(([^)]*)\)", body):
            names.update(TOKEN.findall(m[1]))
        for m in re.finditer(r"\blet ([\w'-]+)", body):
            names.add(m[1])
    for m in re.finditer(r"[({\[]\s*([A-Za-z][\w' -]*?) :(?=\s)", body):
        names.update(m[1].split())
    for m in re.finditer(r"λ\s*([A-Za-z_][\w' -]*?)\.", body):
        names.update(m[1].split())
    return names, tops


def outside(text, ours):
    """The names that a file takes from elsewhere."""
    got = set()
    for m in re.finditer(r"^\s*(?:ghost )?(?:pub )?use ([^\s{]+)\.\{([^}]*)\}", text, re.M):
        parts = m[1].split(".")
        if parts[0] == "Rattle" and len(parts) > 1 and parts[1] in ours:
            if not (parts[-1] == "goal" or "Goals" in parts or "Given" in parts):
                continue
        for n in m[2].split(","):
            got.add(n.split(" as ")[0].strip())
    return got


def spelled(name, words):
    parts = name.split("-")
    parts = [p if p[:1].isupper() else HUMP.sub("_", p).lower() for p in parts]
    old = name.split("-")
    out = parts[0]
    left = old[0]
    for i in range(1, len(parts)):
        rest = "-".join(old[i:])
        joins = left in words and rest in words and (HUMP.search(left) or HUMP.search(rest))
        out += ("-" if joins else "_") + parts[i]
        left = old[i] if joins else left + "-" + old[i]
    return out


def pieces(path, text):
    """A text in pieces: code, and what stays as it is (comments and strings)."""
    pat = r'("(?:[^"\\\n]|\\.)*"|//[^\n]*)' if path.endswith(".rt") else r"((?:^|(?<=\s))--(?=\s|$)[^\n]*)"
    at = 0
    for m in re.finditer(pat, text, re.M):
        yield text[at:m.start()], True
        yield m[0], False
        at = m.end()
    yield text[at:], True


def main():
    words = sys.argv[1:]
    file = None
    if "--map" in words:
        i = words.index("--map")
        file = words[i + 1]
        del words[i:i + 2]
    root = words[0] if words else "."
    ours = set(os.listdir(os.path.join(root, "crates")))
    texts = {p: open(p, encoding="utf-8").read() for p in sources(root)}
    if file and os.path.exists(file):
        names = dict(l.split() for l in open(file, encoding="utf-8"))
    else:
        found, tops = set(), set()
        for p, t in texts.items():
            if not of_function(p):
                a, b = defined(p, t)
                found |= a
                tops |= b
        known = WORDS | {t for t in tops if "-" not in t}
        names = {n: spelled(n, known) for n in sorted(found) if plain(n)}
        taken = {b for a, b in names.items() if "-" not in a} | {n for n in found if not plain(n)}
        names = {a: b + "_lem" if "-" in a and b in taken else b for a, b in names.items()}
        names = {a: b for a, b in names.items() if a != b} | {a: a + "_lem" for a in SPELLED}
        if file:
            with open(file, "w", encoding="utf-8") as f:
                f.writelines(f"{a} {b}\n" for a, b in sorted(names.items()))
    if any(t.endswith("_lem") and t[:-4] in SPELLED for text in texts.values() for t in TOKEN.findall(text)):
        sys.exit("respell: the names are spelled already")
    changed = 0
    for p, t in texts.items():
        skip = outside(t, ours)
        one = of_function(p)
        clash = collections.defaultdict(set)

        def turn(m, before):
            n = m[0]
            if n in skip or n not in names:
                if NAME.match(n):
                    clash[n].add(n)
                return n
            if one and before.endswith("."):
                return n
            if n in SPELLED and (p.endswith(".rt") or before.endswith(".")):
                return n
            clash[names[n]].add(n)
            return names[n]

        out = []
        for s, code in pieces(p, t):
            if not code:
                if "λ" not in s and not s.startswith('"'):
                    s = re.sub(r"(?<![\w-])[a-z][a-z0-9]*(?:[A-Z][a-z0-9]*)+(?![\w-])", lambda m: names.get(m[0], m[0]), s)
                out.append(s)
                continue
            out.append(TOKEN.sub(lambda m: turn(m, s[max(0, m.start() - 1):m.start()]), s))
        new = "".join(out)
        for n, from_ in sorted(clash.items()):
            if len(from_) > 1:
                print(f"fall together: {os.path.relpath(p, root)}: {n} <- {', '.join(sorted(from_))}")
        if new != t:
            changed += 1
            with open(p, "w", encoding="utf-8") as f:
                f.write(new)
    print(f"{len(names)} names, {changed} files changed")


main()
