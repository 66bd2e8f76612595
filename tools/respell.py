#!/usr/bin/env python3
"""Brings this repository's own definitions and lemmas to the spelling of today's Rattle: words in snake case.

usage: tools/respell.py [--check]      at the top of the repository, right after the kit's port script

Turned are the names that specs/ and proofs/ define: definitions, lemmas, constructors and fields of records. Types and
modules keep their capitals, functions of src/ keep their names, and so does every name that Rattle makes (goals and the
steps that answers cite). A name that would fall together with another gets a word more, in OTHER. With --check nothing
is written, and names that fall together are listed.
"""
import glob
import os
import re
import sys

# Names that would fall together with a function, a field or a parameter of the code or with a word of the library.
# `first_of` is a tactic of today.
OTHER = {
    "first_of": "first_refusal",
    "count-takes": "count_takes_lem",
    "day-ok": "day_ok_lem",
    "every-at": "every_at_lem",
    "factor-ok": "factor_ok_lem",
    "month-test": "month_test_lem",
    "on-frame": "on_frame_lem",
    "posted-as": "posted_as_lem",
    "paid-line": "paid_line_lem",
    "posted-line": "posted_line_lem",
    "refund-test": "refund_test_lem",
    "refunded-line": "refunded_line_lem",
    "refused-in": "refused_in_lem",
    "sizes-ok": "sizes_ok_lem",
    "derationPrice": "deration_price_of",
    "floorPrice": "floor_price_of",
    "hedgePrice": "hedge_price_of",
    "hourLine": "hour_line_of",
    "firstHour": "first_hour_of",
    "monthEnd": "month_at_end",
    "endTest": "ending_test",
}
NAME = r"[A-Za-z_][A-Za-z0-9_'₀-₉-]*(?:ℤ|ℕ)?"
TOKEN = re.compile(r"(?<![A-Za-z0-9_'₀-₉◌-])[A-Za-z_][A-Za-z0-9_'₀-₉ℤℕ-]*")
LAYOUT = re.compile(r"^(?:(?:abbrev|unfoldable|pub|data|record)\s+)*")


def files(*parts):
    found = []
    for part in parts:
        found += glob.glob(part, recursive=True)
    return sorted(f for f in found if "/out/" not in f)


def is_answer(path):
    return os.path.basename(path) in ("Answers.antt", "Invariants.antt", "Choices.antt", "Proof.antt")


def snake(name):
    name = re.sub(r"(?<=[a-z0-9])([A-Z])", lambda m: "_" + m.group(1).lower(), name)
    return name.replace("-", "_")


def defined(path):
    """The names that a file of specs/ or proofs/ defines, other than answers to goals and types."""
    inside = None
    for line in open(path, encoding="utf-8"):
        if line.startswith(("use ", "--", "mod ", "pub mod ", "unfolding ")):
            continue
        head = LAYOUT.match(line).group(0)
        rest = line[len(head):]
        if line[:1] not in (" ", "\n", ""):
            inside = "data" if "data " in head else "record" if "record " in head else "module" if rest.startswith("module ") else None
            m = re.match(r"(\S+)[^:]*? : (.*)$", rest)
            if m and not (is_answer(path) and m.group(2).startswith("goal.")):
                yield m.group(1)
        elif inside:
            m = re.match(r"\s+(?:(?:pub|abbrev|unfoldable) )*([^\s(){}]+) : ", line)
            if m:
                yield m.group(1)


def table():
    names, goals = set(), set()
    for path in files("crates/*/proofs/**/*.antt"):
        goals |= set(re.findall(r"\bgoal\.([^\s(){};]+)", open(path, encoding="utf-8").read()))
    for path in files("crates/*/specs/**/*.antt", "crates/*/proofs/**/*.antt"):
        for name in defined(path):
            if re.fullmatch(TOKEN.pattern[TOKEN.pattern.index("[A-Za-z_][A"):], name) and not name[0].isupper():
                new = OTHER.get(name, snake(name))
                if new != name and name not in goals:
                    names.add((name, new))
    return dict(names)


def turned(text, names, answer):
    def one(m):
        word = m.group(0)
        if word not in names:
            return word
        before = text[max(0, m.start() - 5):m.start()]
        # a goal, a step of an answer, or a variable of a loop has a name that Rattle makes
        if answer and re.search(r"(?:\b(?:goal|c|w|l)\.)$", before):
            return word
        return names[word]
    return TOKEN.sub(one, text)


def clauses(text, names):
    """The clauses and ghost parts of a file of src/: what stands in `ghost use` lines and in the braces of clauses."""
    out, at = [], 0
    for m in re.finditer(r"^\s*(?:pub )?(?:ghost use [^;]*;|(?:requires|ensures|ghost)\b[^{;=]*(?:=\s*)?\{)", text, re.M):
        if m.start() < at:
            continue
        end = m.end()
        if text[end - 1] == "{":
            depth = 1
            while depth:
                depth += {"{": 1, "}": -1}.get(text[end], 0)
                end += 1
        out += [text[at:m.start()], turned(text[m.start():end], names, False)]
        at = end
        # a ghost member with a type may have a body after it
        more = re.match(r"\s*=\s*\{", text[at:])
        if more:
            end = at + more.end()
            depth = 1
            while depth:
                depth += {"{": 1, "}": -1}.get(text[end], 0)
                end += 1
            out.append(turned(text[at:end], names, False))
            at = end
    out.append(text[at:])
    return "".join(out)


def main():
    names = table()
    check = "--check" in sys.argv
    if check:
        new = {}
        for old, to in sorted(names.items()):
            new.setdefault(to, []).append(old)
        for to, olds in new.items():
            if len(olds) > 1:
                print("together:", to, olds)
    for path in files("crates/*/specs/**/*.antt", "crates/*/proofs/**/*.antt", "crates/*/src/**/*.rt", "crates/*/must-fail/*.edit"):
        text = open(path, encoding="utf-8").read()
        if path.endswith(".antt"):
            new = turned(text, names, is_answer(path))
        elif path.endswith(".rt"):
            new = clauses(text, names)
        else:
            new = turned(text, names, False) if re.search(r"^file: (?:specs|proofs)/", text, re.M) else text
        if check:
            words = set(TOKEN.findall(text))
            for old in sorted(words & set(names)):
                if names[old] in words:
                    print("meets:", path, old, names[old])
        elif new != text:
            open(path, "w", encoding="utf-8").write(new)
    if check:
        print(len(names), "names")


main()
