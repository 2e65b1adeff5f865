#!/usr/bin/env python3
"""Brings the names of this repository's own definitions and lemmas to one spelling.

usage: python3 tools/respell.py [--dry]     at the top of the repository, once, right after the kit's port.py

Functions, lemmas and fields are in snake case, types in upper camel case. Names come from the .antt files alone; code,
strings and the names that the check makes are left as they are. In README.md and docs/ the names between backquotes are
turned too. A new name that stands already where the old one is used is said (a function of the code may have the name of
the definition that its contract cites); two names that would become one are refused, and want a line in OTHER.
"""

import os
import re
import sys

# A definition or a field: a name at the head of a line, parameters, a colon.
HEAD = re.compile(r"^\s*(?:(?:abbrev|unfoldable|pub|data|record)\s+)*([^\s:(){}=.λ|,;]+)(?:\s*[({].*[)}])?\s*:\s")
# Another name for what would fall together with a name that stands.
OTHER = {
    "is-omega": "at_omega",
    "getD-big": "get_or_big",
    "getD-build": "get_or_build",
    "getD-last": "get_or_last",
    "getD_front": "get_or_front",
}
WORD = r"[\w'·]"


def snake(name):
    parts = re.split(r"[-_]", re.sub(r"(?<=[a-z0-9])([A-Z])", r"_\1", name))
    first = parts[0][:1].islower()
    return "_".join(p if len(p) == 1 else p.lower() for p in parts) if first else name


def camel(name):
    return "".join(p[:1].upper() + p[1:] for p in name.split("-"))


def respelled(name, line):
    """The new name of a definition, by its kind: a type's is in camel case."""
    if name in OTHER:
        return OTHER[name]
    if name[:1].isupper():
        is_type = re.search(r"Type 0|^\s*(pub )?(data|record) ", line)
        return camel(name) if is_type else name.replace("-", "_")
    return snake(name)


def files(top):
    for folder, dirs, names in os.walk(top):
        dirs[:] = sorted(d for d in dirs if d not in ("out", ".git"))
        for n in sorted(names):
            if n.endswith((".antt", ".rt", ".edit")):
                yield os.path.join(folder, n)


def pages(top):
    yield os.path.join(top, "README.md")
    for n in sorted(os.listdir(os.path.join(top, "docs"))):
        if n.endswith(".md"):
            yield os.path.join(top, "docs", n)


def own_names(texts):
    names = {}
    for path, text in texts.items():
        if not path.endswith(".antt"):
            continue
        for line in text.split("\n"):
            m = HEAD.match(line)
            if not m or line.lstrip().startswith("--") or re.search(r":\s*(goal|given|need)\.", line):
                continue
            name = m.group(1)
            if not re.fullmatch(r"[\w'-]+", name) or name in ("let", "in"):
                continue
            new = respelled(name, line)
            if new != name:
                names[name] = new
    return names


def turn(path, text, names, used):
    """The text with the names turned, outside strings; in comments only names that are no plain words."""
    token = re.compile(r"(?<![\w'·-])[A-Za-z][\w'-]*(?![\w'])")

    def one(line):
        code, note = line, ""
        mark = "//" if path.endswith(".rt") else "--"
        at = re.search(r"(^|\s)" + re.escape(mark) + r"(\s|$)", line)
        if at and not path.endswith(".edit"):
            code, note = line[: at.start()], line[at.start():]

        def put(m):
            word = m.group(0)
            before = code[: m.start()]
            if word not in names:
                return word
            # a member of a value that the check made: c.is-found
            dot = re.search(r"([^\s(){}\[\],.]*)\.$", before)
            if dot and not re.match(r"[A-Z]", dot.group(1)) and word not in FIELDS:
                return word
            used.add(word)
            return names[word]

        pieces = re.split(r'("(?:[^"\\]|\\.)*")', code) if path.endswith((".rt", ".edit")) else [code]
        out = []
        for k, piece in enumerate(pieces):
            if k % 2:
                out.append(piece)
                continue
            code = piece
            out.append(token.sub(put, piece))
        note = token.sub(lambda m: names.get(m.group(0), m.group(0)) if re.search(r"[a-z][A-Z]|^[A-Z]\w*-", m.group(0)) else m.group(0), note)
        return "".join(out) + note

    return "\n".join(one(line) for line in text.split("\n"))


FIELDS = set()


def main():
    dry = "--dry" in sys.argv
    texts = {}
    for p in files("crates"):
        with open(p, encoding="utf-8") as f:
            texts[p] = f.read()
    names = own_names(texts)
    for p, t in texts.items():
        if p.endswith(".antt"):
            for line in t.split("\n"):
                m = re.match(r"^\s+pub ([\w'-]+)\s*(?:[({].*[)}])?\s*:\s", line)
                if m and m.group(1) in names:
                    FIELDS.add(m.group(1))
    token = re.compile(r"(?<![\w'·-])[A-Za-z][\w'-]*(?![\w'])")
    clashes = []
    for p, t in texts.items():
        if p.endswith(".edit"):
            continue
        words = set(token.findall(t))
        for w in sorted(words):
            if w in names and names[w] in words:
                clashes.append((w, names[w], p))
    back = {}
    for old, new in names.items():
        back.setdefault(new, []).append(old)
    for new, olds in back.items():
        if len(olds) > 1:
            clashes.append((olds, new, "two names"))
    for c in clashes:
        print("falls together:", *c)
    print(len(names), "names")
    if any(c[2] == "two names" for c in clashes):
        raise SystemExit(1)
    if dry:
        return
    used = set()
    for p, t in texts.items():
        new = turn(p, t, names, used)
        if new != t:
            with open(p, "w", encoding="utf-8") as f:
                f.write(new)
    for p in pages("."):
        with open(p, encoding="utf-8") as f:
            t = f.read()
        new = re.sub(r"`[^`\n]*`", lambda m: token.sub(lambda w: names.get(w.group(0), w.group(0)), m.group(0)), t)
        if new != t:
            with open(p, "w", encoding="utf-8") as f:
                f.write(new)
    print("not met:", *sorted(set(names) - used))


if __name__ == "__main__":
    main()
