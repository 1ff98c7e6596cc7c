#!/usr/bin/env python3
"""Counts, for docs/DESIGN-PASS.md, the places in src/ that read like an older language.

Run at the top of a checkout; a folder as an argument counts another one. Each line is a point's number, what is
counted, how many there are, and where.
"""
import collections
import glob
import itertools
import os
import re
import sys

os.chdir(sys.argv[1] if len(sys.argv) > 1 else ".")
SOURCES = {path: open(path).read() for path in sorted(glob.glob("crates/*/src/*.rt")) if not path.endswith("tables.rt")}
WORDS = {"if", "else", "let", "mut", "while", "for", "in", "return", "match", "as", "true", "false"}


def matches(pattern):
    """Where a pattern stands, as crate/file:line."""
    found = []
    for path, text in SOURCES.items():
        for at in re.finditer(pattern, text, re.M):
            found.append(f"{path[7:-3].replace('/src', '')}:{text.count(chr(10), 0, at.start()) + 1}")
    return found


def named(names):
    """Where functions of these names stand."""
    return matches(rf"^ *(?:pub(?:\(crate\))? )?(?:extern \"C\" )?fn (?:{names})(?:<[^(]*>)?\(")


def functions():
    """Each function: its name, its parameters and the facts of its `requires` clauses."""
    for path, text in SOURCES.items():
        heads = re.finditer(r"fn (\w+)(?:<[^>]*>)?\(([^{]*?)\)(?: -> [^{\n]*)?\n?((?:\s+(?:requires|ensures)[^\n]*\n(?:\s{8,}[^\n]*\n)*)*)", text)
        for head in heads:
            name = f"{path.split('/')[1]}:{head.group(1)}"
            parameters = [p.strip() for p in re.sub(r"\s+", " ", head.group(2)).split(",") if ":" in p]
            asked = re.findall(r"requires(?: \w+)? \{(.*?)\}\s*(?=ensures|requires|\Z|\n)", head.group(3), re.S)
            facts = {f.strip().strip("()").strip() for a in asked for f in re.split(r"\s×\s", a.strip())}
            yield name, parameters, facts


def bodies():
    """Each function's body of eight words and signs or more, with names and numbers left out."""
    for path, text in SOURCES.items():
        for head in re.finditer(r"^( *)(?:pub(?:\(crate\))? )?(?:extern \"C\" )?fn (\w+)", text, re.M):
            start = re.compile(rf"^{head.group(1)}\{{$|^.*[^{{ ] \{{$", re.M).search(text, head.start())
            end = re.compile(rf"^{head.group(1)}\}}$", re.M).search(text, start.end())
            words = re.findall(r"[A-Za-z_]\w*|\d\w*|\S", re.sub(r"//.*", "", text[start.end():end.start()]))
            if 8 <= len(words):
                shape = " ".join(w if w in WORDS else "0" if w[0].isdigit() else "a" if w[0].isalpha() or w[0] == "_" else w for w in words)
                yield f"{path.split('/')[1]}:{head.group(2)}", [shape]


def at_least(times, sets):
    """What stands in so many functions or more."""
    where = collections.defaultdict(list)
    for name, things in sets:
        for thing in things:
            where[thing].append(name)
    return {thing: names for thing, names in where.items() if times <= len(names)}


def show(point, what, places):
    print(f"{point}  {what}: {len(places)}")
    for place in places:
        print(f"     {place}")


show(1, "enums for an answer, and structs of an answer and more", matches(r"^pub enum (?:Answer|Step|Cue)\b|^enum Step\b|^pub struct JobAnswer"))
show(1, "refusals by number", matches(r"Refused\(\w+, |return (?:[1-9]|1[0-4]);$|\{ 13 \}|extra: u8|fault[^(]*\(.*-> u8"))
show(1, "a flag for an answer, or beside a value", matches(r"^    fresh: bool|-> io::Result<bool>"))
show(1, "kinds by number", matches(r"^    pub (?:mode|align|glyph_mode): u32"))
show(2, "numbers in bytes, and entries of samples, for one size", named("two_at|put_two|two|number_at|long_at|color_at|entry_end|tape_end|tape_start|works_start"))
alike = at_least(2, bodies())
show(2, "functions alike but for names and numbers", [", ".join(names) for names in alike.values()])
show(3, "loops by `while`", matches(r"^ *while "))
show(3, "the library's methods by hand", named("move_down|minus|least|distance|rows_left"))
show(4, "equality, copies, conversions and printing by hand", named(
    "same_style|packed|wide|color_bytes|settings_of|stripes_of|record_of|words_of|taken|flags?"
    "|write_number|write_pair|write_digest|write_refusal|write_count|write_line"))
facts = at_least(3, ((name, facts) for name, _, facts in functions()))
show(5, "facts that three functions ask for, or more", [f"{fact}  ({len(names)})" for fact, names in sorted(facts.items())])
triples = at_least(4, ((name, itertools.combinations(sorted(set(p)), 3)) for name, p, _ in functions()))
show(5, "three parameters that four functions have, or more", [f"{', '.join(t)}  ({len(n)})" for t, n in sorted(triples.items())])
show(6, "a length or a place beside a buffer", [name for name, p, _ in functions()
    if any("[u8]" in x for x in p) and any(re.match(r"(?:size|lines|count|works|start|total|stripes): usize", x) for x in p)])
show(6, "arrays beside a count, or beside each other", matches(r"^    pub (?:end_rows|counters): \["))
show(7, "closures and tables of functions that a switch could be", matches(r"\bfn\(|\bdyn |impl Fn|match (?:step|which|kind)\b"))
answers = [f for f in glob.glob("crates/*/proofs/**/Answers.antt", recursive=True) if f.count("/") > 3]
goals = sum(len(re.findall(r"^pub \S+ : goal\.", open(f).read(), re.M)) for f in answers)
lines = sum(open(f).read().count("\n") for f in glob.glob("crates/*/proofs/**/*.antt", recursive=True))
print(f"8  answers: {goals}, in {len(answers)} files; lines of proofs: {lines}")
