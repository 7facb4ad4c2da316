#!/usr/bin/env python3
"""Turns the names of this repository's definitions and lemmas to today's spelling: words in snake case, once, after port.py.

usage: respell.py CRATES        rewrites the .rt and .antt files below CRATES
       respell.py CRATES --map  prints the names and writes nothing

A lemma that would fall together with a definition gets _lem. Functions of src/, strings and plain comments keep their text.
"""
import os
import re
import sys

SIGNED = re.compile(r"^\s*(?:(?:pub|abbrev|unfoldable)\s+)*([^\s:(){}\[\];,.\"`]+)\s+:(?=\s)")
INLINE = re.compile(r"[({;]\s*([a-z][^\s:(){}\[\];,.\"`]*)\s+:(?=\s)")
TOKEN = re.compile(r"[^\s(){}\[\];,.:\"`]+")
# names that join two others, of which the joined form is std's
KEPT = {"bit-and", "bit-or", "bit-xor"}
# a field, which stands behind a dot
FIELDS = {"goes_on"}
# a fact is spelled as a type; lemmas and a local that are named as definitions will be
OWN = {
    "isPlanned": "IsPlanned",
    "after_line": "after_line_lem",
    "in-turn": "in_turn_lem",
    "pair-of": "pair_of_lem",
    "to_read": "to_read_lem",
    "to_write": "to_write_lem",
    "up-to": "up_to_lem",
}


def files(top):
    for folder, dirs, names in os.walk(top):
        dirs[:] = sorted(d for d in dirs if d != "out")
        for name in sorted(names):
            if name.endswith((".rt", ".antt")):
                yield os.path.join(folder, name)


def snake(name):
    name = re.sub(r"([a-z0-9])([A-Z])", lambda m: m.group(1) + "_" + m.group(2).lower(), name)
    return name.replace("-", "_")


def turned(name):
    return name[0].islower() and ("-" in name or re.search(r"[a-z0-9][A-Z]", name)) and name not in KEPT


def parts(line, rust):
    """The line as (text, whether names in it are turned)."""
    mark = "//" if rust else "--"
    out, at, inside = [], 0, False
    code = True
    buffer = ""
    while at < len(line):
        c = line[at]
        if code and not inside and line.startswith(mark, at):
            out.append((buffer, True))
            buffer, code = "", False
        if code and c == '"' and (at == 0 or line[at - 1] != "\\") and not (line[at - 1 : at] == "'" and line[at + 1 : at + 2] == "'"):
            if not inside:
                out.append((buffer, True))
                buffer = c
            else:
                out.append((buffer + c, False))
                buffer = ""
            inside = not inside
        elif not code and c == "`":
            out.append((buffer, inside))
            out.append((c, False))
            buffer = ""
            inside = not inside
        else:
            buffer += c
        at += 1
    out.append((buffer, inside if not code else not inside))
    return out


def respell(text, rust, names):
    def one(line):
        return "".join(TOKEN.sub(lambda m: names.get(m.group(0), m.group(0)), t) if on else t for t, on in parts(line, rust))

    return "\n".join(one(line) for line in text.split("\n"))


def declared(texts):
    own = set()
    for path, text in texts.items():
        if path.endswith(".antt"):
            for line in text.split("\n"):
                line = line.split("-- ")[0]
                m = SIGNED.match(line)
                if m:
                    own.add(m.group(1))
                own.update(INLINE.findall(line))
    return {n for n in own if turned(n)}


def tokens(text):
    """The names that stand on their own in an .antt text, behind no dot."""
    met = set()
    for line in text.split("\n"):
        if line.startswith("use "):
            line = line[line.find("{") :] if "{" in line else ""
        for t, on in parts(line.split("-- ")[0], False):
            if on:
                met.update(m.group(0) for m in TOKEN.finditer(t) if t[m.start() - 1 : m.start()] != ".")
    return met


def spelling(top):
    texts = {}
    for path in files(top):
        with open(path, encoding="utf-8") as f:
            texts[path] = f.read()
    own = declared(texts)
    names = {n: snake(n) for n in sorted(own)}
    # a lemma beside the definition of its name
    for n in own:
        if "-" in n and any(m != n and snake(m) == names[n] for m in own):
            names[n] += "_lem"
    names.update(OWN)
    met = {p: tokens(t) for p, t in texts.items() if p.endswith(".antt")}
    together = {}
    for n, s in names.items():
        together.setdefault(s, set()).add(n)
    fallen = {}
    for s, group in together.items():
        if len(group) > 1:
            for n in group:
                fallen[n] = ("own names fall together", sorted(group))
    for p, words in met.items():
        for n in words & names.keys():
            if names[n] in words - FIELDS and names[n] not in names:
                fallen.setdefault(n, ("stands in", p))
    return texts, names, fallen


def main(argv):
    texts, names, fallen = spelling(argv[0])
    if "--map" in argv:
        for n, (why, where) in sorted(fallen.items()):
            print("together:", n, names[n], why, where)
        print(len(names), "names,", len(fallen), "fall together")
        return 0
    if fallen:
        print("names fall together: " + " ".join(sorted(fallen)), file=sys.stderr)
        return 1
    for path, text in texts.items():
        new = respell(text, path.endswith(".rt"), names)
        if new != text:
            with open(path, "w", encoding="utf-8") as f:
                f.write(new)
    return 0


if __name__ == "__main__":
    raise SystemExit(main(sys.argv[1:]))
