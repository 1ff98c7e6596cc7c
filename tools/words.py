#!/usr/bin/env python3
"""Brings the library's words in specs/ to today's, once, after respell.py: ==, nat_lt, nat_le, slice_index, slice_set.

usage: python3 tools/words.py [FOLDER]

port.py does so in some crates alone, and one thing has one name in all definitions.
"""
import os
import re
import sys

from respell import files, rewritten

PRELUDE = re.compile(r"(use Rattle\.std\.specs\.Prelude\.\{)([^}]*)(\})")
OLD = r"(?<![\w.'-])(eqb|ltb|leb|get_or|set)(?![\w'-])"


def atom(text, at):
    """Where the argument that begins at or after `at` begins and ends."""
    while text[at].isspace():
        at += 1
    end = at
    if text[at] in "([":
        depth = 0
        while True:
            depth += (text[end] in "([") - (text[end] in ")]")
            end += 1
            if depth == 0:
                break
    while end < len(text) and not (text[end].isspace() or text[end] in "()[],;{}"):
        end += 1
    return at, end


def bare(argument):
    """Without parentheses around all of it, where `==` needs none."""
    if argument.startswith("(") and atom(argument, 0)[1] == len(argument):
        inner = argument[1:-1]
        if not re.search(r"[≡≤<,λ]|&&|\|\||==", inner):
            return inner
    return argument


def turned(text):
    """Terms, from the last word to the first: an argument is turned before what it stands in."""
    for found in reversed(list(re.finditer(OLD, text))):
        word, start, at = found.group(1), found.start(), found.end()
        if word in ("ltb", "leb"):
            text = text[:start] + {"ltb": "nat_lt", "leb": "nat_le"}[word] + text[at:]
            continue
        arguments, end = [], at
        for _ in range(2 if word == "eqb" else 3):
            begin, end = atom(text, end)
            arguments.append(text[begin:end])
        if word == "set":
            text = text[:start] + "slice_set" + text[at:]
        elif word == "get_or" and arguments[2] == "0":
            text = text[:start] + f"slice_index {arguments[0]} {arguments[1]}" + text[end:]
        elif word == "get_or":
            text = text[:start] + "slice_index_or" + text[at:]
        else:
            term = f"{bare(arguments[0])} == {bare(arguments[1])}"
            if text[:start].endswith("≡ ") or text[end:].startswith(" ≡"):
                term = f"({term})"
            text = text[:start] + term + text[end:]
    return text


def imports(match, body):
    names = [name for name in re.split(r",\s*", match.group(2)) if name not in ("eqb", "ltb", "leb", "get_or", "set")]
    words = ["nat_le", "nat_lt", "slice_index", "slice_index_or", "slice_set"]
    used = [word for word in words if re.search(rf"(?<![\w.'-]){word}(?![\w'-])", body)]
    used += ["◌==◌"] if " == " in body else []
    return match.group(1) + ", ".join(names + [word for word in used if word not in names]) + match.group(3)


def definitions(text):
    """A file of definitions: its imports, and the code of its other lines."""
    uses = [line for line in text.split("\n") if line.startswith("use ")]
    body = "\n".join(line for line in text.split("\n") if not line.startswith("use "))
    pieces = re.split(r"((?<!\S)--(?!\S)[^\n]*)", body)
    body = "".join(piece if piece.startswith("--") else turned(piece) for piece in pieces)
    code = re.sub(r"(?<!\S)--(?!\S)[^\n]*", "", body)
    head = "\n".join(PRELUDE.sub(lambda m: imports(m, code), line) for line in uses)
    before = text.split("\n")
    first = next((i for i, line in enumerate(before) if line.startswith("use ")), None)
    if first is None:
        return body
    rest = body.split("\n")
    return "\n".join(rest[:first] + head.split("\n") + rest[first:])


def source(text):
    """A source file: its clauses, which alone have these words, and its imports."""
    lines = text.split("\n")
    clause = re.compile(r"(?<![\w.'-])(eqb|ltb|leb|get_or)(?![\w'-])")
    lines = [turned(line) if clause.search(line) and not line.startswith("ghost use") else line for line in lines]
    code = "\n".join(line for line in lines if not line.startswith("ghost use"))
    return "\n".join(PRELUDE.sub(lambda m: imports(m, code), line) if clause.search(line) else line for line in lines)


def edit(text):
    return "\n".join(turned(line) if re.match(r"(old|new): ", line) and "specs/" in text else line for line in text.split("\n"))


def main(root):
    crates = os.path.join(root, "crates")
    turns = [(p, definitions) for p in files(crates, ".antt") if f"{os.sep}specs{os.sep}" in p]
    turns += [(p, source) for p in files(crates, ".rt")]
    turns += [(p, edit) for p in files(crates, ".edit")]
    print(f"words: {rewritten(turns)} files")


if __name__ == "__main__":
    main(sys.argv[1] if len(sys.argv) > 1 else ".")
