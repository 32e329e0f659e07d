#!/usr/bin/env python3
"""Brings the repository's own names to the kit's spelling, after port.py: definitions, lemmas, fields and bound variables in snake case.

usage: python3 tools/respell.py [--list]     at the top of the repository, once, after port.py; --list shows the names and writes nothing

A name is turned where the repository declares it: camelCase names of specs/ and of clauses, and lemmas with dashes in the files of proofs/
that are not of one function. Types, modules and what the kit or a Rust source names stay. Where a turned name would meet another one, the
lemma gets the ending '_lem' (OTHERS). Must-fail edits, README.md and the pages of docs/ follow, also for the names that port.py itself
turned (BY_PORT); docs/landings/ tells of its time and stays.
"""

import glob
import os
import re
import sys

NAME = re.compile(r"[A-Za-z_][\w'-]*")
# the kit's names that port.py left in their spelling
KIT = {"uint_Tells", "uint_Makes", "bool_Lawful", "shr_slice_Tells", "shr_slice_Lawful", "walk_Meets", "exitsOf", "bool_Makes", "mut_Tells"}
# names that would fall together with another: 'first_of' is a tactic; the lemmas have the names of the definitions that they are about
OTHERS = {
    "first_of": "first_refusal",
    "above_lower": "above_lower_lem",
    "after_run": "after_run_lem",
    "after_stop": "after_stop_lem",
    "goes_on": "goes_on_lem",
    "not_negative": "not_negative_lem",
    "last_line": "last_line_lem",
    "record_of": "record_of_lem",
}
# what port.py turned by itself, for the texts that it does not read
BY_PORT = {
    "afterBlock": "after_block", "allBelow": "all_below", "answerOf": "answer_of", "atMost": "at_most", "callsOf": "calls_of",
    "entryOf": "entry_of", "firstOf": "first_refusal", "frameAt": "frame_at", "frameOf": "frame_of", "headOf": "head_of",
    "inArea": "in_area", "inRange": "in_range", "labelOf": "label_of", "lastOf": "last_of", "leftOf": "left_of", "noPart": "no_part",
    "onesIn": "ones_in", "partOf": "part_of", "placeOf": "place_of", "planOf": "plan_of", "readingOf": "reading_of",
    "sameStore": "same_store", "sizeOf": "size_of", "startOf": "start_of", "stateOf": "state_of", "sumOf": "sum_of", "upTo": "up_to",
    "valuesOf": "values_of", "wordIn": "word_in",
}


def snake(word):
    return re.sub(r"([a-z0-9])([A-Z])", r"\1_\2", word).lower()


def without_comments(text):
    return re.sub(r"(--|//).*", "", text)


def sources():
    for path in sorted(glob.glob("crates/**/*", recursive=True)):
        if path.endswith((".rt", ".antt")) and "/out/" not in path:
            yield path


def read(path):
    with open(path, encoding="utf-8") as file:
        return file.read()


def imported(text, crates):
    """The names that the text takes from the kit."""
    for found in re.finditer(r"use ([\w.'-]+)\.\{([^}]*)\}", text):
        parts = found.group(1).split(".")
        if not (parts[0] == "Rattle" and len(parts) > 1 and parts[1] in crates):
            yield from re.split(r"[,\s]+", found.group(2))


def camel_names(texts):
    found = set()
    for text in texts.values():
        for word in NAME.findall(text):
            if re.fullmatch(r"[a-z][A-Za-z0-9_']*", word) and re.search(r"[A-Z]", word) and word not in KIT:
                found.add(word)
    return found


def lemma_names(texts):
    """Names with dashes that a file of proofs/ or specs/ declares which is not of one function."""
    declared = re.compile(r"^\s*(?:pub |abbrev |unfoldable |ruleset )*([a-z][\w']*(?:-[\w'ℤℕ]+)+)\s*[:=](?!=)", re.M)
    names = set()
    for path, text in texts.items():
        if re.fullmatch(r"crates/\w+/(proofs/\w+|specs/.*)\.antt", path):
            names.update(declared.findall(without_comments(text)))
    return names


def table():
    crates = set(os.listdir("crates"))
    texts = {path: read(path) for path in sources()}
    kit = {name for text in texts.values() for name in imported(text, crates)}
    words = {word for text in texts.values() for word in NAME.findall(without_comments(text))}
    camel = {word: snake(word) for word in camel_names(texts) if word not in kit}
    lemmas = {}
    taken = words | set(camel.values()) | set(OTHERS.values())
    for name in sorted(lemma_names(texts) - kit):
        turned = name.replace("-", "_")
        if turned in taken:
            turned += "_lem"
        if turned in taken:
            sys.exit(f"{name}: {turned} is taken")
        taken.add(turned)
        lemmas[name] = turned
    for first in camel:
        for second in camel:
            if first < second and camel[first] == camel[second]:
                sys.exit(f"{first} and {second} fall together")
    return camel, lemmas


def turned(text, names, lemmas):
    def one(found):
        word = found.group(0)
        if word in names:
            return names[word]
        # behind a dot a name with dashes is a field that Rattle makes
        if word in lemmas and not text[: found.start()].endswith("."):
            return lemmas[word]
        return word

    return re.sub(r"(?<![\w'◌-])[A-Za-z_][\w'◌-]*", one, text)


def main():
    camel, lemmas = table()
    if "--list" in sys.argv:
        for old, new in sorted((camel | lemmas | OTHERS).items()):
            print(old, "->", new)
        return
    others = {old: new for old, new in OTHERS.items()}
    for path in sources():
        text = read(path)
        # what has a definition's name by now goes first, so that the two are not mixed up; a Rust source has no such lemma
        first = others if path.endswith(".antt") else {"first_of": "first_refusal"}
        new = turned(turned(text, first, {}), camel, lemmas)
        if new != text:
            with open(path, "w", encoding="utf-8") as file:
                file.write(new)
    pages = ["README.md"] + glob.glob("docs/*.md") + glob.glob("crates/*/must-fail/*.edit")
    for path in sorted(pages):
        if path == "docs/PORT.md":
            continue
        text = read(path)
        new = turned(text, BY_PORT | camel, lemmas)
        if new != text:
            with open(path, "w", encoding="utf-8") as file:
                file.write(new)


main()
