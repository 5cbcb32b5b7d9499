#!/usr/bin/env python3
"""Brings this repository's own definitions and lemmas to one spelling: words in snake case, types and facts in camel case.

usage: tools/respell.py [--list]     at the top of the checkout, once; --list only prints old and new names

A name is its own if a file of crates/*/specs, or one that stands right in crates/*/proofs, defines it. What the checker
names after the code (the files of proofs/F/) keeps its name, and so does the text of .rt files outside of clauses and
imports. Files of specs/ and proofs/, and must-fail edits of them, are respelled throughout, comments too.
"""
import os
import re
import sys

WORD = r"[^\s:(){}\[\],;.`\"|]+"
DEFINED = re.compile(rf"^[ ]*(?:(?:abbrev|unfoldable|pub|data|record|ruleset)\s+)*({WORD})(?:[ ][^=\n]*)?\s:(?:\s|$)", re.M)
MEMBER = re.compile(rf"^\s+(?:pub\s+)?({WORD})\s:\s", re.M)


def files(kinds):
    for folder, dirs, names in os.walk("crates"):
        dirs[:] = sorted(d for d in dirs if d not in ("out", "target"))
        for name in sorted(names):
            if name.endswith(kinds):
                yield os.path.join(folder, name)


def defines(path):
    """Whether a file's definitions are the repository's own, and not answers to goals."""
    parts = path.split(os.sep)
    return parts[2] == "specs" or (parts[2] == "proofs" and len(parts) == 4)


def spelled(name):
    if name[0].isupper():
        return "".join(p[:1].upper() + p[1:] for p in name.split("-"))
    return name.replace("-", "_")


def renames():
    own, taken = set(), set()
    for path in files((".antt",)):
        text = re.sub(r"--.*", "", open(path, encoding="utf-8").read())
        for line in re.finditer(r"use Rattle\.std\.[^{;\n]*\{([^}]*)\}", text):
            taken |= {n.strip().split(" as ")[0].strip() for n in line.group(1).split(",")}
        if defines(path):
            own |= set(DEFINED.findall(text)) | set(MEMBER.findall(text))
    turned = {n: spelled(n) for n in own if re.fullmatch(r"[A-Za-z][\w']*(-[\w']+)+", n) and n not in taken}
    for old, new in sorted(turned.items()):
        others = [o for o, n in turned.items() if n == new and o != old]
        if new in own or new in taken or others:
            print(f"falls together: {old} -> {new} {others}", file=sys.stderr)
    return turned


def ghost_spans(text):
    """The parts of a .rt file that clauses and imports fill: from `ghost` or a clause's word to the end of its braces."""
    for m in re.finditer(r"ghost use [^;]*;|\b(?:ghost|requires|ensures)\b[^{;\n]*\{", text):
        end = m.end()
        if text[end - 1] == "{":
            depth = 1
            while depth and end < len(text):
                depth += {"{": 1, "}": -1}.get(text[end], 0)
                end += 1
        yield m.start(), end


def respell(text, turned):
    return re.sub(r"(?<![\w'-])[A-Za-z][\w']*(?:-[\w']+)+(?![\w'-])", lambda m: turned.get(m.group(0), m.group(0)), text)


def main():
    turned = renames()
    if "--list" in sys.argv:
        print("\n".join(f"{o} {n}" for o, n in sorted(turned.items())))
        return
    for path in files((".antt", ".rt", ".edit")):
        text = open(path, encoding="utf-8").read()
        if path.endswith(".rt"):
            new, at = "", 0
            for start, end in ghost_spans(text):
                if start >= at:
                    new += text[at:start] + respell(text[start:end], turned)
                    at = end
            new += text[at:]
        elif path.endswith(".edit") and "file: specs/" not in text and "file: proofs/" not in text:
            continue
        else:
            new = respell(text, turned)
        if new != text:
            open(path, "w", encoding="utf-8").write(new)


main()
