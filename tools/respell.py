#!/usr/bin/env python3
"""Brings the repository's own definitions and lemmas to the spelling of today's Rattle, once, after port.py.

usage: python3 tools/respell.py [FOLDER]

Words are in snake case. Where a lemma's name falls together with a definition's, the lemma has `_lem` behind it.
Functions of src/, exported names, strings, inputs and outputs keep their names; so do the names of goals and of
steps, which Rattle makes from the source.
"""
import collections
import os
import re
import sys

NAME = re.compile(r"[^\s(){}\[\];,.\"@«»`]+")
SIGNATURE = re.compile(
    r"^\s*(?:(?:abbrev|unfoldable|pub|record|data|ruleset) )*([A-Za-z][^\s(){}\[\];,.:]*)\s*"
    r"(?:\{[^}]*\}|\([^)]*\)|\s)*:( |$)"
)
# Facts spelled as words: a fact is spelled as a type.
FACTS = {"free": "IsFree"}


def files(root, ends):
    for folder, folders, names in os.walk(root):
        folders[:] = sorted(f for f in folders if f not in ("out", "target", ".git"))
        for name in sorted(names):
            if name.endswith(ends):
                yield os.path.join(folder, name)


def snake(name):
    name = name.replace("getD", "get_or")
    if name[0].islower():
        name = re.sub(r"([a-z0-9])([A-Z])", lambda m: m.group(1) + "_" + m.group(2).lower(), name)
    return name.replace("-", "_")


def declared(root):
    """The names that shared files declare, each with the folders that it stands in; and the names of fields."""
    found, fields = collections.defaultdict(set), set()
    for path in files(os.path.join(root, "crates"), ".antt"):
        parts = os.path.relpath(path, root).split(os.sep)
        if len(parts) != 4:
            continue
        with open(path, encoding="utf-8") as text:
            for line in text:
                # constructors and locals in camel case too, which have no signature of their own
                for word in re.findall(r"(?<![\w-])[a-z][a-z0-9]*[A-Z]\w*", line.partition("--")[0]):
                    found[word].add(parts[2])
                told = SIGNATURE.match(line)
                if told:
                    found[told.group(1)].add(parts[2])
                    if line.startswith("  pub "):
                        fields.add(told.group(1))
    return found, fields


def renamed(found):
    """New names by old ones."""
    new = {name: snake(name) for name in found if "-" in name or re.match("[a-z].*[A-Z]", name)}
    new.update({name: fact for name, fact in FACTS.items() if name in found})
    together = collections.defaultdict(list)
    for name in found:
        together[new.get(name, name)].append(name)
    for word, names in together.items():
        if len(names) > 1:
            definitions = [name for name in names if "specs" in found[name]]
            keeps = definitions[0] if len(definitions) == 1 else None
            for name in names:
                if name != keeps:
                    new[name] = word + "_lem"
            if len(definitions) > 1 or len(names) > 2:
                raise SystemExit(f"respell: {names} fall together: {[found[n] for n in names]}")
    return new


def in_antt(text, new, fields):
    def word(match, before):
        name = match.group(0)
        if name not in new:
            return name
        if before.endswith(".") and "-" in name and name not in fields:
            # behind a module the name is ours; behind a value it is one that Rattle makes
            owner = re.search(r"([^\s(){}\[\];,.]+)\.$", before)
            if not owner or not owner.group(1)[0].isupper():
                return name
        return new[name]

    lines = []
    for line in text.split("\n"):
        code, dashes, comment = line.partition("--") if re.search(r"(^|\s)--(\s|$)", line) else (line, "", "")
        code = NAME.sub(lambda m: word(m, code[: m.start()]), code)
        lines.append(code + dashes + in_words(comment, new))
    return "\n".join(lines)


def in_words(text, new):
    """Text for people, and Rust: camel case anywhere, names with dashes between backticks alone."""
    camel = {name: to for name, to in new.items() if re.match("[a-z].*[A-Z]", name)}
    text = re.sub(r"(?<![\w-])[a-z][A-Za-z0-9]*[A-Z][A-Za-z0-9-]*(?![\w-])", lambda m: camel.get(m.group(0), m.group(0)), text)
    return re.sub(r"`[^`\n]+`", lambda m: NAME.sub(lambda n: new.get(n.group(0), n.group(0)) if "-" in n.group(0) else n.group(0), m.group(0)), text)


def in_clauses(text, new):
    """A source file or an edit: names in the lines of clauses and imports."""
    lines = []
    for line in text.split("\n"):
        if re.search(r"ghost use|\b(requires|ensures)\b|^    +\(|[≡≤→×λ]", line):
            line = NAME.sub(lambda m: new.get(m.group(0), m.group(0)) if m.group(0) not in FACTS else m.group(0), line)
        lines.append(in_words(line, new))
    return "\n".join(lines)


def rewritten(turns):
    """Turns each file by its function; says how many are other than they were."""
    changed = 0
    for path, turn in turns:
        with open(path, encoding="utf-8") as file:
            text = file.read()
        after = turn(text)
        if after != text:
            changed += 1
            with open(path, "w", encoding="utf-8") as file:
                file.write(after)
    return changed


def main(root):
    found, fields = declared(root)
    new = renamed(found)
    crates = os.path.join(root, "crates")
    turns = [(p, lambda t: in_antt(t, new, fields)) for p in files(crates, ".antt")]
    turns += [(p, lambda t: in_clauses(t, new)) for p in files(crates, (".rt", ".edit"))]
    pages = [os.path.join(root, "README.md"), *files(os.path.join(root, "deposit"), ".txt")]
    pages += [p for p in files(os.path.join(root, "docs"), ".md") if os.sep + "notes" + os.sep not in p]
    pages += [*files(os.path.join(root, "host"), (".rs", ".c")), *files(os.path.join(root, "include"), ".h")]
    turns += [(p, lambda t: in_words(t, new)) for p in pages]
    changed = rewritten(turns)
    for name, to in sorted(new.items()):
        if to.endswith("_lem") or name in FACTS:
            print(f"{name} -> {to}")
    print(f"respell: {len(new)} names, {changed} files")


if __name__ == "__main__":
    main(sys.argv[1] if len(sys.argv) > 1 else ".")
