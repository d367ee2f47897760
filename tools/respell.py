#!/usr/bin/env python3
"""Brings the repository's own definitions and lemmas to today's spelling: words in snake case, facts and types in camel case.

usage: python3 tools/respell.py            at the top of the repository, once, after port.py
       python3 tools/respell.py --list     prints each old name with its new one, and changes nothing

Names are collected from specs/ and from the lemma files of proofs/, then replaced as whole words: in .antt files everywhere, in .rt files in
clauses, imports and between backticks of comments. Functions of src/, strings and exported names stay.
A dash stays where it joins the names of two of std's functions, as in length-drop.
"""
import os
import re
import sys

STD = {"length", "drop", "take", "map", "flat_map", "get_or", "replicate", "cond", "append", "cons", "set", "sum", "mod", "div"}
WORD = re.compile(r"[^\W][\w'\-→]*")
# Facts that were spelled as words.
FACTS = {"all_read": "AllRead", "choices-put": "ChoicesPut", "C-call-told": "CCallTold", "Best-lamp": "BestLamp"}
# Names that stand inside a module or are bound by one.
INSIDE = {"On-condition", "On-gain", "By-relation", "Meeting-sheet", "Writes-shown", "no-nearer", "sound-held", "not-no", "printed-text", "models-few", "in-a", "in-b", "in-buf", "small-c", "some-place", "later-on", "most-choices-here"}
# Names that would fall together with another.
APART = {"flat-map": "flat_map-of_map", "put-mid": "put_mid-tail"}
PLAIN = {"flatMap": "flat_map", "getD": "get_or"}
TOP = re.compile(r"^(?:abbrev |unfoldable |ruleset )?(?:pub )?([^\s:(){}.,\[\]]+)\s*:(?!=)", re.M)
TYPE = re.compile(r"^(?:pub )?(?:record|data) (?:pub )?([^\s:(){}.,]+)", re.M)
FIELD = re.compile(r"^\s+(?:pub )?([^\s:(){}.,|=→]+(?: [^\s:(){}.,|=→]+)*)\s*:(?!=)", re.M)


def files(root, kinds):
    for folder, dirs, names in os.walk(root):
        dirs[:] = sorted(d for d in dirs if d not in ("out", ".git", "target"))
        for f in sorted(names):
            if f.endswith(kinds):
                yield os.path.join(folder, f)


def of_function(path):
    return re.search(r"/proofs/.*/(Proof|Answers|Invariants)\.antt$", path)


def collected():
    found = set()
    for path in files("crates", (".antt",)):
        text = open(path, encoding="utf-8").read()
        text = re.sub(r"--.*", "", text)
        for m in TOP.finditer(text):
            goal = of_function(path) and re.search(r"^\s*tie\.", text[m.end():])
            if not goal:
                found.add(m.group(1))
        if of_function(path):
            continue
        for m in TYPE.finditer(text):
            found.add(m.group(1))
        for m in FIELD.finditer(text):
            found.update(m.group(1).split())
    return {n for n in found | INSIDE if WORD.fullmatch(n)} - set(APART.values())


def turned(name):
    if name in FACTS or name in APART:
        return (FACTS | APART)[name]
    if "→" in name or ("-" not in name and not any(k in name for k in PLAIN)):
        return name
    for old, new in PLAIN.items():
        name = re.sub(rf"(?<![a-z]){old}(?![a-z])", new, name)
    parts = name.split("-")
    if name[0].isupper() and len(parts[0]) > 1:
        return "".join(p[:1].upper() + p[1:] for p in parts)
    if name[0].isupper():
        return name
    if parts[0] in STD and len(parts) > 1 and parts[1].split("_")[0] in STD | {"flat"}:
        return parts[0] + "-" + "_".join(parts[1:])
    return "_".join(parts)


def table():
    return {n: turned(n) for n in collected() if turned(n) != n}


def replaced(text, names):
    return WORD.sub(lambda m: names.get(m.group(0), m.group(0)), text)


def in_backticks(text, names):
    return re.sub(r"`[^`\n]+`", lambda m: replaced(m.group(0), names), text)


def rust(text, names):
    out = []
    inside = False
    for line in text.split("\n"):
        code, mark, comment = line.partition("//")
        bare = code.strip()
        if re.match(r"ghost\b|requires\b|ensures\b", bare):
            inside = True
        if inside:
            code = replaced(code, names)
            if re.match(r"ghost use\b", bare):
                inside = not bare.endswith(";")
        if inside and (bare in ("{", "}") or bare.endswith("},") and bare.startswith("ghost")):
            inside = False
        out.append(code + mark + in_backticks(comment, names))
    return "\n".join(out)


def main():
    names = table()
    if "--list" in sys.argv:
        for old in sorted(names):
            print(old, names[old])
        return
    for path in files("crates", (".antt", ".rt")):
        text = open(path, encoding="utf-8").read()
        new = rust(text, names) if path.endswith(".rt") else replaced(text, names)
        if new != text:
            open(path, "w", encoding="utf-8").write(new)


main()
