#!/usr/bin/env python3
"""Prints the definitions of specs/ that the given ones rest on, file by file, with their lines.

Usage: tools/needed_definitions.py CRATE.FILE.NAME.. [-NAME..] (as mov_run.Promised.WritesMargin)

A name after a dash, of a definition or a crate, is left out, with what only it rests on.

A definition's lines are its own and those of the comment above it, without imports and blank lines. Fields of a record belong to it.
Types of the program (structs and enums of src/) are not counted; definitions of the kit's library neither.
"""
import glob
import re
import sys


def blocks(path):
    """The definitions of a file, by name, each as its lines."""
    found, name, pending = {}, None, []
    for line in open(path, encoding="utf-8"):
        text = line.rstrip("\n")
        if not text.strip() or text.startswith("use ") or text.startswith("pub mod"):
            if not text.strip():
                name, pending = None, []
            continue
        if text.strip() == "abbrev mutual":
            continue
        if text.strip().startswith("--"):
            pending.append(text)
            continue
        head = re.match(r"^(?:abbrev pub|unfoldable pub|pub record|pub|  pub) ([^ ]+)(?: :| \(|$)", text)
        inner = text.startswith("  pub") and name is not None and found[name][0]
        if head and not inner:
            name = head.group(1)
            found[name] = (text.startswith("pub record"), pending + [text])
            pending = []
        elif name is not None:
            found[name][1].extend(pending + [text])
            pending = []
    return {key: lines for key, (_, lines) in found.items()}


def main(given):
    roots = [it for it in given if not it.startswith("-")]
    left = {it[1:] for it in given if it.startswith("-")}
    files, imports = {}, {}
    for path in sorted(glob.glob("crates/*/specs/*.antt")):
        crate, file = path.split("/")[1], path.split("/")[3][:-5]
        files[crate, file] = blocks(path)
        names, others = {}, {}
        for line in open(path, encoding="utf-8"):
            use = re.match(r"use Rattle\.(\w+)\.specs\.(\w+)\.\{(.*)\}", line)
            if use:
                for item in use.group(3).split(","):
                    own, _, shown = item.strip().partition(" as ")
                    names[shown or own] = (use.group(1), use.group(2), own)
            whole = re.match(r"use Rattle\.(\w+)\.specs\.(\w+) as (\w+)", line)
            if whole:
                others[whole.group(3)] = (whole.group(1), whole.group(2))
        imports[crate, file] = (names, others)
    needed, ahead = [], [tuple(root.split(".")) for root in roots]
    while ahead:
        crate, file, name = ahead.pop()
        if crate in left or name in left or (crate, file, name) in needed or name not in files.get((crate, file), {}):
            continue
        needed.append((crate, file, name))
        names, others = imports[crate, file]
        text = "\n".join(line for line in files[crate, file][name] if not line.strip().startswith("--"))
        for word in re.findall(r"[\w.'≡∷-]+", text):
            if word in files[crate, file]:
                ahead.append((crate, file, word))
            elif word in names:
                ahead.append(names[word])
            elif "." in word and word.split(".")[0] in others:
                ahead.append((*others[word.split(".")[0]], word.split(".", 1)[1]))
    total = 0
    for at in sorted(set((crate, file) for crate, file, _ in needed)):
        own = [name for crate, file, name in needed if (crate, file) == at]
        lines = sum(len(files[at][name]) for name in own)
        total += lines
        print(f"{lines:4d}  {at[0]}/specs/{at[1]}.antt: {' '.join(sorted(own))}")
    print(f"{total:4d}  in all")


main(sys.argv[1:])
