#!/usr/bin/env python3
"""Brings the names that this repository's specs/ and proofs/ declare to one spelling: words in snake case.

usage: tools/respell.py [--table FILE]    at the top of the repository, once, after the kit's port.py

A name that a specs/ or proofs/ file declares and that begins with a small letter loses its capitals and dashes: `ruleRefusal`
and `strong-yes-stays` become `rule_refusal` and `strong_yes_stays`. Where a definition and a lemma would meet, the lemma gets
`_lem` at its end. A name that a file imports from outside the repository stays in that file. What is turned: the .antt files
of specs/ and proofs/, clauses and `ghost use` lines of src/, comments' names, the lines of must-fail and further edits, and
the names in backquotes of README.md and docs/*.md. --table writes the table of names.
"""

import collections
import os
import re
import sys

DECLARED = re.compile(
    r"\s*(?:(?:pub|abbrev|unfoldable|open|record|data|ruleset) )*([^\s(){}.;,@\"«»:]+)(?: \{[^{}]*\})* :(?:\s|$)"
)
HEADED = re.compile(r"\s*(?:(?:pub|abbrev|unfoldable) )*(?:ruleset|record|data|module) ([^\s(){}.;,@\"«»:]+)")
TOKEN = re.compile(r"[^\s(){}.;,@\"«»`]+")
GIVEN = ("Proof.antt", "Answers.antt", "Invariants.antt")
USE = re.compile(r"^(?:pub )?use ([^\s{;]+?)\.?(?:\{([^}]*)\})?(?: as (\S+))?;?$")


def files(ends):
    for root, folders, names in os.walk("crates"):
        folders[:] = sorted(f for f in folders if f not in ("out", "target"))
        for name in sorted(names):
            if name.endswith(ends):
                yield os.path.join(root, name)


def read(path):
    with open(path, encoding="utf-8") as f:
        return f.read()


def snake(name):
    return re.sub(r"(?<=[a-z0-9])[A-Z]", lambda m: "_" + m[0].lower(), name).replace("-", "_")


def declared():
    found = collections.defaultdict(set)
    for path in files(".antt"):
        if os.path.basename(path) in GIVEN:
            continue
        text = read(path)
        lent = foreign(text)
        for line in text.split("\n"):
            if line.lstrip().startswith("--"):
                continue
            # names of several on a line, and variables, are spelled alike
            for m in TOKEN.finditer(re.sub(r'"[^"]*"|(?:^|(?<=\s))--.*', "", line)):
                odd = re.match(r"[a-z]\S*-[a-z]|[a-z]\S*[a-z0-9][A-Z]", m[0])
                if odd and m[0] not in lent and not line[: m.start()].endswith("."):
                    found[m[0]].add(path)
            for form in (DECLARED, HEADED):
                m = form.match(line)
                if m and re.match(r"[a-z]", m[1]):
                    found[m[1]].add(path)
    return found


def table(found):
    taken = set()
    for path in files((".antt", ".rt")):
        taken |= foreign(read(path))
    groups = collections.defaultdict(set)
    for name in found:
        groups[snake(name)].add(name)
    turned = {}
    for new, olds in groups.items():
        # the plain name goes to what specs/ has, then to a name of words written together
        order = sorted(
            olds,
            key=lambda n: (not any("/specs/" in p for p in found[n]), not re.search(r"[a-z0-9][A-Z]", n), "-" in n, n),
        )
        for i, old in enumerate(order):
            to = new if i == 0 and (new not in taken or "-" not in old) else new + "_lem"
            if to != old:
                turned[old] = to
    return turned


def foreign(text):
    """The names that a file imports from outside the repository."""
    names = set()
    for m in re.finditer(r"^(?:pub |ghost )*use ([^\s{;]+?)\.?\{([^}]*)\}", text, re.M):
        if not OURS.match(m[1]):
            for item in m[2].split(","):
                names.add(item.strip().split(" as ")[-1].strip())
    return names


CRATES = [l.split(":")[0].split()[0] for l in open("crates.txt") if ":" in l and not l.startswith("#")]
OURS = re.compile(r"Rattle\.(%s)\." % "|".join(CRATES))


# Variables that would be read as a constructor that has got their name: file, old, new.
VARIABLES = [("crates/one_line_readers/proofs/ReadLaws.antt", "no_or", "none_follows")]


def turn_code(code, names):
    def one(m):
        # a label that Rattle makes stands behind `tie.`
        before = code[: m.start()]
        if before.endswith("tie."):
            return m[0]
        return names.get(m[0], m[0])

    return TOKEN.sub(one, code)


def turn_comment(text, names):
    text = re.sub(r"`[^`\n]*`", lambda m: turn_code_spans(m[0], names), text)
    # a name of words written together is no English word; the lemmas listed behind "Laws:" are names
    text = TOKEN.sub(lambda m: names[m[0]] if m[0] in names and re.search(r"[a-z0-9][A-Z]", m[0]) else m[0], text)
    text = re.sub(r"(?<![\w`])[a-z0-9]+(?:-[a-z0-9]+)*-laws\b", lambda m: names.get(m[0], m[0]), text)
    return re.sub(
        r"(Laws(?:\.antt)?: )([^()]*)", lambda m: m[1] + TOKEN.sub(lambda t: names.get(t[0], t[0]), m[2]), text
    )


def turn_code_spans(span, names):
    return TOKEN.sub(lambda m: names.get(m[0], m[0]), span)


def turn_antt(text, names):
    out = []
    for line in text.split("\n"):
        m = re.search(r"(?:^|(?<=\s))--(?=\s|$|-)", line)
        if m:
            out.append(turn_code(line[: m.start()], names) + turn_comment(line[m.start() :], names))
        else:
            out.append(turn_code(line, names))
    return "\n".join(out)


def turn_clauses(code, names):
    """Inside clauses and ghost items of a .rt file."""
    out, i = [], 0
    clause = re.compile(r"(?:(?<=\s)|^)(?:(?:requires|ensures)\*?(?: \w+)? \{|ghost use [^;]*;|ghost \w+: \{|ghost invariant[^{]*\{)", re.M)
    while True:
        m = clause.search(code, i)
        if not m:
            return "".join(out) + code[i:]
        out.append(code[i : m.start()])
        end = m.end()
        if m[0].endswith("{"):
            depth = 1
            while depth:
                depth += {"{": 1, "}": -1}.get(code[end], 0)
                end += 1
        out.append(turn_code(code[m.start() : end], names))
        i = end


def turn_rt(text, names):
    # comments first, line by line, then the clauses
    lines = []
    for line in text.split("\n"):
        m = re.match(r"\s*//", line)
        lines.append(turn_comment(line, names) if m else line)
    return turn_clauses("\n".join(lines), names)


def main():
    found = declared()
    names = table(found)
    if "--table" in sys.argv:
        with open(sys.argv[sys.argv.index("--table") + 1], "w", encoding="utf-8") as f:
            for old in sorted(names):
                f.write(f"{old}\t{names[old]}\n")
    met = 0
    for path in list(files((".antt", ".rt", ".edit"))):
        text = read(path)
        keep = foreign(text)
        before = text
        mine = {k: v for k, v in names.items() if k not in keep}
        here = set(TOKEN.findall(re.sub(r"--.*", "", text)))
        images = collections.defaultdict(set)
        for old in here:
            images[mine.get(old, old)].add(old)
        for new, olds in sorted(images.items()):
            if len(olds) > 1 and path.endswith(".antt") and os.path.basename(path) not in GIVEN:
                print(f"meet: {path}: {' and '.join(sorted(olds))}")
                met += 1
        for file, old, to in VARIABLES:
            if path == file:
                text = TOKEN.sub(lambda m: to if m[0] == old else m[0], text)
        if path.endswith(".antt"):
            new = turn_antt(text, mine)
        elif path.endswith(".rt"):
            new = turn_rt(text, mine)
        else:
            target = re.search(r"^file: (\S+)", text, re.M)
            antt = target and target[1].endswith(".antt")
            new = "\n".join(
                (turn_code(l, mine) if antt or re.search(r"requires|ensures", l) else l)
                if re.match(r"(?:old|new): ", l)
                else turn_comment(l, mine)
                for l in text.split("\n")
            )
        if new != before:
            with open(path, "w", encoding="utf-8") as f:
                f.write(new)
    pages = ["README.md"] + ["docs/" + f for f in sorted(os.listdir("docs")) if f.endswith(".md")]
    for path in pages:
        text = read(path)
        new = re.sub(r"`[^`\n]*`", lambda m: turn_code_spans(m[0], names), text)
        if new != text:
            with open(path, "w", encoding="utf-8") as f:
                f.write(new)
    print(f"{len(names)} names turned, {met} to look at")


main()
