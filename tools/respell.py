#!/usr/bin/env python3
"""Brings the repository's own words of specs/, proofs/ and clauses to snake case; facts keep upper camel case.

usage: python3 tools/respell.py      at the top of the repository, once, after the kit's scripts
"""

import os
import re

# words that cannot go by the rule, since their new spelling is another word's
BY_HAND = [
    (("units",), {"as_bytes": "as_bytes-bytes"}),
    (("units", "visit"), {"first_of": "first_message", "firstOf": "first_message"}),
    (None, {"Reads-back": "ReadsBack", "No-call-skipped": "NoCallSkipped", "Messages-written": "MessagesWritten"}),
]
# fields of records: snake case, with no dash
FIELDS = """sound-turned sound-offered says-proper reads-as-written reads-records same-when-plain start-room one-region one-region-once guard-band
no-regions many-regions no-width no-height no-height-outside no-projected-height second-outside""".split()
# made by the toolchain
KEPT = {"cases_Bool"}

WORD = re.compile(r"[\w'][\w'≤<≡+*∷→]*(?:-[\w'≤<≡+*∷→]+)*")
STRING = re.compile(r'"(?:[^"\\]|\\.)*"')


def snake(part):
    if part in KEPT or not re.match(r"^_?[a-z]\w*[A-Z]", part):
        return part
    return re.sub(r"(?<=[a-z0-9])([A-Z])", lambda m: "_" + m.group(1).lower(), part)


def respelled(word, by_hand):
    if word in by_hand:
        return by_hand[word]
    if word in FIELDS:
        return word.replace("-", "_")
    head, *more = word.split("-")
    return "-".join([by_hand.get(head, snake(head))] + [snake(p) for p in more])


def turn(text, by_hand):
    return WORD.sub(lambda m: respelled(m.group(0), by_hand), text)


def turn_code(text, by_hand):
    """All but what stands in strings."""
    parts, at = [], 0
    for m in STRING.finditer(text):
        parts += [turn(text[at:m.start()], by_hand), m.group(0)]
        at = m.end()
    return "".join(parts + [turn(text[at:], by_hand)])


def main():
    for folder, dirs, files in os.walk("crates"):
        dirs[:] = sorted(d for d in dirs if d != "out")
        crate = folder.split(os.sep)[1] if os.sep in folder else None
        by_hand = {}
        for crates, words in BY_HAND:
            if crates is None or crate in crates:
                by_hand.update(words)
        for name in sorted(files):
            if not name.endswith((".antt", ".rt")):
                continue
            path = os.path.join(folder, name)
            with open(path, encoding="utf-8") as f:
                old = f.read()
            new = turn_code(old, by_hand if name.endswith(".antt") else {**by_hand, "first_of": "first_of"})
            if new != old:
                with open(path, "w", encoding="utf-8") as f:
                    f.write(new)
                print(path)


main()
