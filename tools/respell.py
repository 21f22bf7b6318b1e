#!/usr/bin/env python3
"""Spells this repository's own definitions and lemmas in snake case. Run it once, at the top, after the kit's port.py.

usage: tools/respell.py

A name that an .antt file of crates/ declares, or binds, and that has a hump (usedOf) or a dash (used-rest) gets underscores (used_of, used_rest).
Where two names would fall together, the definition gets the plain name and the lemma gets _lem (CONTRACT_STYLE.md, "Names", 3).
It turns .antt and .rt files, must-fail and tried edits, and code spans of the pages. Names that a file imports from a library stay in
that file. In a Proof.antt a name behind a dot is a step of the code, and gets no _lem.
It prints each name that got _lem, and each file where a new name meets one from a library.
"""

import collections
import os
import re

WORD = re.compile(r'[^\s(){}.;,@"«»]+')
QUIET = re.compile(r'"(?:[^"\\\n]|\\.)*"|(?<![^\s(){}.;,@"«»])--[^\n]*|\{-.*?-\}', re.S)
USE = re.compile(r"\buse ([^\s;{]+)(\{[^;]*?\}(?=;|[ \t]*$))?(?: as ([^\s;]+))?", re.M)
DECLARED = re.compile(r"(?m)^ *(?:\w+ )*?(\S+)(?: \{[^{}\n]*\})* :")
LOCAL = re.compile(r"\blet (?:open )?([^\s:=(]+)")
SPAN = re.compile(r"`[^`\n]+`")
RUST_QUIET = re.compile(r'//[^\n]*|"(?:\\.|[^"\\])*"')


def is_old(name):
    return name[:1].islower() and bool(re.search(r"[a-z0-9][A-Z]", name) or re.search(r"\w-\w", name))


def in_snake_case(name):
    words = re.sub(r"(?<=[a-z0-9])[A-Z]", lambda m: "_" + m[0].lower(), name)
    return words.replace("-", "_")


def files(*endings):
    for folder, folders, names in os.walk("crates"):
        folders[:] = sorted(f for f in folders if f != "out")
        for name in sorted(names):
            if name.endswith(endings):
                yield os.path.join(folder, name)


def read(path):
    with open(path, encoding="utf-8") as f:
        return f.read()


def is_own(path):
    parts = path.split(".")
    return parts[0] == "Rattle" and len(parts) > 1 and os.path.isdir(os.path.join("crates", parts[1]))


def imported(code, own):
    names = set()
    for path, items, alias in USE.findall(code):
        if is_own(path) == own:
            names.update(WORD.findall(items))
    return names


def table():
    """Each old name's new spelling, and the lemmas in snake case already that give way to a definition."""
    declared = collections.defaultdict(set)
    for path in files(".antt"):
        if path.endswith("/Proof.antt"):
            continue
        code = QUIET.sub(" ", read(path))
        for name in DECLARED.findall(code) + LOCAL.findall(code):
            declared[name].add(path)
    theirs = set()
    for path in files(".antt"):
        theirs |= imported(QUIET.sub(" ", read(path)), False)
    for path in files(".antt"):
        if path.endswith("/Proof.antt"):
            continue
        for name in WORD.findall(QUIET.sub(" ", read(path))):
            if is_old(name) and name not in theirs and name not in declared:
                declared[name].add(path)
    by_new = collections.defaultdict(set)
    for name in sorted(declared):
        if is_old(name):
            by_new[in_snake_case(name)].add(name)
        elif re.fullmatch(r"[a-z][a-z0-9]*(_[a-z0-9]+)+", name):
            by_new[name].add(name)
    new, given_way = {}, {}
    for name, olds in by_new.items():
        humps = sorted(o for o in olds if "-" not in o and o != name)
        others = sorted(o for o in olds if o not in humps)
        keeps = humps or [o for o in others if o == name] or others[:1]
        for old in sorted(olds):
            spelled = name if old in keeps else name + "_lem"
            if old not in keeps:
                print("respell: %s is %s beside %s" % (old, spelled, ", ".join(keeps)))
            if old == name and spelled != name:
                given_way[old] = spelled
            elif old != spelled:
                new[old] = spelled
    return new, given_way, declared


def turn(text, names, quiet, in_quiet):
    out, at = [], 0
    whole = lambda t, with_names: WORD.sub(lambda m: with_names.get(m[0], m[0]), t)
    for m in quiet.finditer(text):
        out += [whole(text[at : m.start()], names), m[0] if m[0][0] == '"' else whole(m[0], in_quiet)]
        at = m.end()
    return "".join(out + [whole(text[at:], names)])


def turn_given_way(text, given_way):
    """Lemmas that give way: not where they are a part of a path (a function's folder, a field of a Rust struct)."""
    for old, new in given_way.items():
        text = re.sub(r'(?<![^\s(){},;])' + re.escape(old) + r'(?![^\s(){},;])(?!\s*(?:\.|::|\())', new, text)
    return text


def main():
    new, given_way, declared = table()
    humps = {old: to for old, to in new.items() if "-" not in old}
    for path in files(".antt"):
        text = read(path)
        code = QUIET.sub(" ", text)
        theirs = imported(code, False)
        names = {old: to for old, to in new.items() if old not in theirs}
        here = {o: t for o, t in given_way.items() if path in declared[o] or o in imported(code, True)}
        turned = turn(turn_given_way(text, here), names, QUIET, humps)
        if path.endswith("/Proof.antt"):
            turned = re.sub(r"(?<=\.)(\w+)_lem\b", r"\1", turned)
        used = set(WORD.findall(code))
        for old in sorted(used):
            if names.get(old) in theirs:
                print("respell: %s: %s meets a library's %s" % (path, old, names[old]))
        if turned != text:
            with open(path, "w", encoding="utf-8") as f:
                f.write(turned)
    for path in files(".rt"):
        text = read(path)
        turned = turn(text, new, RUST_QUIET, humps)
        if turned != text:
            with open(path, "w", encoding="utf-8") as f:
                f.write(turned)
    for path in files(".edit"):
        text = read(path)
        turned = WORD.sub(lambda m: new.get(m[0], m[0]), text)
        if turned != text:
            with open(path, "w", encoding="utf-8") as f:
                f.write(turned)
    pages = [os.path.join(d, f) for d in (".", "docs", "reference", "interface") for f in sorted(os.listdir(d)) if f.endswith(".md")]
    piece = re.compile(r"[A-Za-z][\w'-]*")
    for path in pages:
        text = read(path)
        turned = SPAN.sub(lambda s: piece.sub(lambda m: new.get(m[0], m[0]), s[0]), text)
        if turned != text:
            with open(path, "w", encoding="utf-8") as f:
                f.write(turned)


main()
