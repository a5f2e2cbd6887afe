#!/usr/bin/env python3
"""Lists the places in crates/*/src that an older form may stand in, by the points of docs/DESIGN-PASS.md.

  tools/places.py [POINT]     each place as  POINT.LETTER FILE:LINE TEXT, and the number of each letter at the end
"""
import collections
import glob
import os
import re
import sys

WANTED = sys.argv[1] if len(sys.argv) > 1 else ""
found = collections.OrderedDict()
TITLES = {
    "1a": "enums with a variant that says no: Refused, Malformed, Nothing, Nowhere, NoState",
    "1b": "fields that say beside a value whether it is there: a refusal's number, `failed`, `found`",
    "1c": "functions that answer a number of 8 bits",
    "1d": "constants that number kinds, refusals, forms or signs",
    "1e": "parameters and fields that hold such a number",
    "2a": "functions named by a type, structs named by a number, the six programs' `main`s",
    "2b": "functions that build one value of many by a constant alone",
    "3a": "`while` loops",
    "3b": "`for` loops over a range of numbers",
    "4a": "functions that compare, copy, convert or test a kind by hand",
    "5a": "functions that take nodes beside what stands before them, or masks and states beside C and N",
    "5b": "functions that take all four parts of a session",
    "6a": "structs of an array and a count",
    "7a": "functions that take a flag or a phase by which they choose a step",
}


def place(letter, path, line, text):
    found.setdefault(letter, []).append("%s %s:%d %s" % (letter, path, line, text.strip()))


def items(text, word):
    """Each `word NAME .. {body}` as (line, head, body)."""
    for m in re.finditer(r"^( *)(pub(\(crate\))? )?(unsafe )?(extern \"C\" )?%s [^;{]*?\{" % word, text, re.M):
        depth, i = 1, m.end()
        while depth and i < len(text):
            depth += {"{": 1, "}": -1}.get(text[i], 0)
            i += 1
        yield text.count("\n", 0, m.start()) + 1, m.group(0), text[m.end():i]


def heads(text):
    """Each function as (line, name, parameters, answer)."""
    for m in re.finditer(r"^ *(?:pub(?:\(crate\))? )?(?:unsafe )?(?:extern \"C\" )?fn (\w+)[^(]*\(([^)]*)\)(?: -> ([^\n{]+))?", text, re.M):
        yield text.count("\n", 0, m.start()) + 1, m.group(1), m.group(2), (m.group(3) or "").strip()


for path in sorted(glob.glob("crates/*/src/**/*.rt", recursive=True)):
    text = open(path).read()
    bare = re.sub(r"//[^\n]*", "", text)
    for line, head, body in items(bare, "enum"):
        if re.search(r"^ *(Refused|Malformed|Nothing|Nowhere|NoState)\b", body, re.M):
            place("1a", path, line, head)
    for line, head, body in items(bare, "struct"):
        for m in re.finditer(r"^ *(?:pub )?(number|refusal|failed|found): (u8|bool)", body, re.M):
            place("1b", path, line, head.rstrip("{ ") + " " + m.group(0).strip())
        if re.search(r": \[[^\]]+\]", body) and re.search(r"\bcount: usize", body):
            place("6a", path, line, head)
        for m in re.finditer(r"^ *(?:pub )?(kind|form|sign|code): u8", body, re.M):
            place("1e", path, line, head.rstrip("{ ") + " " + m.group(0).strip())
        if re.search(r"struct (One|Two|Three|Seven)", head):
            place("2a", path, line, head)
    for m in re.finditer(r"struct \w+\(pub \[[^\]]+\], pub usize\)", bare):
        place("6a", path, bare.count("\n", 0, m.start()) + 1, m.group(0))
    for m in re.finditer(r"^ *(pub )?const [A-Z_0-9]+: u8 = [0-9]+;", bare, re.M):
        place("1d", path, bare.count("\n", 0, m.start()) + 2, m.group(0))
    for line, name, params, answer in heads(bare):
        flat = " ".join(params.split())
        text_of = "fn %s(%s) -> %s" % (name, flat[:60], answer)
        if answer == "u8":
            place("1c", path, line, text_of)
        if re.search(r"\b(kind|form|c|code|number|refusal): u8", flat):
            place("1e", path, line, text_of)
        if re.search(r"_(u8|u32|u64)$|^pick_", name):
            place("2a", path, line, text_of)
        if name in ("say_unread", "say_unwritten") or (name == "main" and "watch" not in path):
            place("2a", path, line, text_of)
        if answer == "Node":
            place("2b", path, line, text_of)
        if re.search(r"\bnodes: &\[u32\]", flat) and re.search(r"RuleHeading|TableHeading|count: usize", flat):
            place("5a", path, line, text_of)
        elif re.search(r"\bmasks: &\[u32\]", flat) and re.search(r"\bstates: &\[u64\]", flat):
            place("5a", path, line, text_of)
        if re.search(r"\bheading: &(mut )?\[usize", flat) and "masks" in flat and "nodes" in flat and "states" in flat:
            place("5b", path, line, text_of)
        if re.search(r"\b(short|back|rewritten|weak|of_rule): bool|\bphase: Phase", flat):
            place("7a", path, line, text_of)
        if name in ("same", "copy_u32", "lay", "widen", "put", "of_judgement", "headings", "is_opening", "is_ended", "least", "of_kind",
                    "takes_two", "is_leaf", "is_unknown", "takes_nodes", "letters", "word_of", "kind_of_word", "late_kind_of_word", "index"):
            place("4a", path, line, text_of)
    for m in re.finditer(r"^ *while .*", bare, re.M):
        place("3a", path, bare.count("\n", 0, m.start()) + 1, m.group(0))
    for m in re.finditer(r"^ *for .*\.\..*", bare, re.M):
        place("3b", path, bare.count("\n", 0, m.start()) + 1, m.group(0))

for letter in sorted(TITLES):
    if letter.startswith(WANTED):
        for line in found.get(letter, []):
            print(line)
for letter in sorted(TITLES):
    if letter.startswith(WANTED):
        print("%s  %4d  %s" % (letter, len(found.get(letter, [])), TITLES[letter]))
