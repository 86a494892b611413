#!/usr/bin/env python3
"""Spells the names that specs/ and proofs/ declare as today's library does: definitions, fields and constructors in snake case.

usage: tools/respell.py [--check]      at the top of the repository

A name in lower camel case gets underscores (lineEnd: line_end); a type, a fact and a module keep their capital; a lemma keeps its dashes, and each part of its
name is spelled like the definition that it names (goTo-first: go_to-first). A definition, a field or a constructor with a dash gets an underscore in its place,
unless that is another name already.
A lemma that would then have its definition's name gets _lem. Functions of src/, strings, and texts outside clauses and comments stay.
Printed: each name with its new spelling. With --check nothing is written.
"""
import collections
import os
import re
import sys

NAME = r"[^\s(){}.;,@\"«»]+"
COMMENT = re.compile(r"(?<![^\s(){}.;,@\"«»])--[^\n]*")
WORD = re.compile(NAME)
STRING = re.compile(r'"(?:[^"\\\n]|\\.)*"')
DECLARED = re.compile(rf"^( *)((?:abbrev |unfoldable |pub |data |record |ruleset )*)({NAME})(?: [({{].*)? :(?: |$)")
SEVERAL = re.compile(rf"^( *)(?:pub )?((?:{NAME} )+): ")
BLOCK = re.compile(r"^( *)(?:pub |abbrev |unfoldable )*(record|data|module|where|mutual)\b")


def texts(kinds):
    for folder, folders, files in os.walk("crates"):
        folders[:] = sorted(f for f in folders if f != "out")
        for name in sorted(files):
            if name.endswith(kinds):
                yield os.path.join(folder, name)


def read(path):
    with open(path, encoding="utf-8") as f:
        return f.read()


def shared(path):
    """Whether names of the file may be used in other files: a file of specs/, or right in proofs/."""
    parts = path.split("/")
    return parts[2] in ("specs", "proofs") and len(parts) == 4 and parts[3] != "Lib.antt"


def snake(word):
    def one(part):
        if not part[:1].islower():
            return part
        part = re.sub(r"(?<=[a-z0-9₀-₉])([A-Z])", r"_\1", part)
        return re.sub(r"(?<=[A-Z])([A-Z][a-z])", r"_\1", part).lower()

    return "-".join(one(part) for part in word.split("-"))


def declared():
    """Each name that a shared file declares: how, 'term' (a definition, a field, a constructor) or 'lemma'."""
    names = {}
    for path in filter(shared, texts(".antt")):
        blocks = []
        for line in COMMENT.sub("", read(path)).split("\n"):
            depth = len(line) - len(line.lstrip(" "))
            if line.strip():
                while blocks and depth <= blocks[-1][0]:
                    blocks.pop()
            inside = blocks[-1][1] if blocks else ""
            block = BLOCK.match(line)
            if block:
                blocks.append((depth, block[2]))
            found, many = DECLARED.match(line), SEVERAL.match(line)
            if found:
                words = [found[3]]
                term = inside in ("record", "data") or bool(re.search("abbrev|unfoldable|data|record", found[2]))
            elif many and inside in ("record", "data"):
                words, term = many[2].split(), True
            else:
                continue
            for word in words:
                names[word] = "term" if term or names.get(word) == "term" else "lemma"
    return names


def table():
    names = declared()
    out = {word: snake(word) for word in names if snake(word) != word} | {"each-getD": "each-get_or"}
    fresh = set(out.values())
    for word, kind in names.items():
        flat = snake(word).replace("-", "_")
        if kind == "term" and flat != snake(word) and flat not in names and flat not in fresh:
            out[word] = flat
    where = collections.defaultdict(list)
    for word in out:
        where[out[word]].append(word)
    for new, words in where.items():
        if len(words) > 1:
            raise SystemExit(f"respell: {' and '.join(sorted(words))} would both be {new}")
    return out


def module(path):
    _, crate, folder, name = path.split("/")
    return f"Rattle.{crate}.{folder}.{name[: -len('.antt')]}"


def met(rows):
    """Lemmas that would meet a definition in some file: for each file, those that it declares or imports, with their new names."""
    old = {new: word for word, new in rows.items()}
    has = lambda text, word: re.search(rf"(?<![^\s(){{}};,@«»]){re.escape(word)}(?![^\s(){{}}.;,@«»])", text)
    code = {path: COMMENT.sub("", read(path)) for path in texts(".antt")}
    out = collections.defaultdict(dict)
    for path in filter(shared, code):
        for line in code[path].split("\n"):
            found = DECLARED.match(line)
            if not found or found[3] not in old:
                continue
            word, at = found[3], re.compile(rf"use {re.escape(module(path))}\.\{{([^}}]*)\}}")
            those = [path] + [p for p, t in code.items() if any(word in re.split(r"[\s,]+", m[1]) for m in at.finditer(t))]
            if any(has(code[p], old[word]) for p in those):
                for p in those:
                    out[p][word] = word + "_lem"
    return out


def turned(text, rows, quiet):
    """The text with its words turned, but for what `quiet` finds."""
    out, at = [], 0
    for m in quiet.finditer(text):
        out += [words(text[at : m.start()], rows), m[0]]
        at = m.end()
    return "".join(out + [words(text[at:], rows)])


def words(text, rows):
    def one(m):
        word = m[0]
        if word not in rows:
            return prose(word, rows)
        # behind a dot such a name is the one that Rattle makes of a function of src/
        made = rows[word].endswith("_lem") and text[m.start() - 1 : m.start()] == "."
        return word if made else rows[word]

    return WORD.sub(one, text)


def prose(word, rows):
    """A word as a comment has it: with signs round it. Only a name in camel case is known there."""
    bare = re.fullmatch(r"([`'\[|:]*)([A-Za-z][\w₀-₉-]*)([`'\]|:]*)", word)
    if bare and bare[0] != bare[2] and bare[2] in rows and re.search("[a-z][A-Z]|-", bare[2]):
        return bare[1] + rows[bare[2]] + bare[3]
    return word


def main(args):
    rows = table()
    for word in sorted(rows):
        print(f"{word}\t{rows[word]}")
    lemmas = met(rows)
    for path in sorted(lemmas):
        print(f"{path}: {' '.join(sorted(lemmas[path].values()))}")
    if "--check" in args:
        return
    for path in texts((".antt", ".rt")):
        old = read(path)
        # In a .rt file a clause alone can have such a name: Rust's own names are in snake case or begin with a capital.
        here = {w: n for w, n in rows.items() if path.endswith(".antt") or not w.islower()} | lemmas.get(path, {})
        new = turned(old, here, STRING)
        if new != old:
            with open(path, "w", encoding="utf-8") as f:
                f.write(new)


main(sys.argv[1:])
