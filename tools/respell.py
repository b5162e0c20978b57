#!/usr/bin/env python3
"""Brings the names of this repository's definitions and lemmas to snake case, and those of its types to camel case.

Run once, at the top, after the kit's own script. Functions of src/, strings and comments of code keep their text:
in a .rt file only clauses and ghost items are respelled. Names that a proof file answers (`pub x : goal.x`) are the
checker's own, and stay.
"""
import glob
import re
import sys

# Names that would fall together with another of this repository, and what they are called in its stead.
APART = {
    "answer_at": "answer_known_at",
    "comes-to": "comes_to_closed",
    "is-only": "only_is_only",
    "lowest-held": "lowest_below_held",
    "lowest-unused": "lowest_unused_is",
    "newest-from": "newest_from_among",
    "no-bag": "no_bag_stands",
    "pin_of": "pin_among",
    "tally-turn": "tally_turn_is",
}

TOKEN = re.compile(r"[A-Za-z_][A-Za-z0-9_'-]*")
TOP = re.compile(r"^(?:abbrev |pub |data |record |unfoldable )*([A-Za-z_][A-Za-z0-9_'-]*)\s*(?=[:({])(.*)$")
INNER = re.compile(r"^  (?:abbrev )?(?:pub )?([A-Za-z_][A-Za-z0-9_'-]*) : ")


def snake(name):
    name = re.sub(r"(?<=[a-z0-9])([A-Z])", r"_\1", name.replace("-", "_"))
    return name.lower()


def camel(name):
    return "".join(part[:1].upper() + part[1:] for part in name.split("-"))


def spelled(name):
    if name in APART:
        return APART[name]
    return camel(name) if name[0].isupper() else snake(name)


def declared(path):
    """The names that a file declares: at its top level, and as fields and constructors."""
    top, inner, block = set(), set(), False
    for line in open(path):
        m = TOP.match(line)
        if m and not line.startswith(("use ", "mod ", "pub mod", "unfolding", "open ", "infix")):
            block = bool(re.match(r"(pub )?(data|record) ", line))
            if line.split("=")[0].count(":") and not re.search(r":\s*goal\.", line):
                top.add(m.group(1))
        elif line.strip() and not line.startswith((" ", "\t")):
            block = False
        elif INNER.match(line):
            # a field or a constructor, or a lemma in a module with parameters
            (inner if block else top).add(INNER.match(line).group(1))
    return top, inner


def respell(text, names, fields):
    aliases = set(re.findall(r"^use \S+ as ([a-z_]+)$", text, re.M)) - {"goal"}

    def one(m):
        word, before = m.group(0), text[: m.start()]
        if before.endswith("."):
            owner = re.search(r"([A-Za-z0-9_'-]+)\.$", before)
            owner = owner.group(1) if owner else ""
            if owner in ("goal", "at"):
                return word
            if (owner[:1].isupper() or owner in aliases) and word in names:
                return names[word]
            return fields.get(word, word)
        return names.get(word, fields.get(word, word))

    return TOKEN.sub(one, text)


def respell_code(text, names, fields):
    """Respells a .rt file's clauses and ghost items, and nothing else."""
    out, depth = [], 0
    for line in text.split("\n"):
        head = line.strip()
        ghost = head.startswith(("requires", "ensures", "ghost ", "decreases", "#[tactic", "#![tactic"))
        if ghost or depth > 0:
            depth += line.count("{") - line.count("}")
            line = respell(line, names, fields)
        out.append(line)
    return "\n".join(out)


def main():
    files = sorted(glob.glob("crates/*/specs/**/*.antt", recursive=True) + glob.glob("crates/*/proofs/**/*.antt", recursive=True))
    top, inner = set(), set()
    for path in files:
        t, i = declared(path)
        top |= t
        inner |= i
    names = {n: spelled(n) for n in top if spelled(n) != n}
    fields = {n: spelled(n) for n in inner if spelled(n) != n}
    if "--list" in sys.argv:
        print("names:", " ".join(f"{a}>{b}" for a, b in sorted(names.items())))
        print("fields:", " ".join(f"{a}>{b}" for a, b in sorted(fields.items())))
        news = {}
        for n in sorted(top | inner):
            news.setdefault(spelled(n), set()).add(n)
        print("together:", [sorted(v) for v in news.values() if len(v) > 1])
        return
    for path in files:
        text = open(path).read()
        new = respell(text, names, fields)
        if new != text:
            open(path, "w").write(new)
    for path in sorted(glob.glob("crates/*/src/**/*.rt", recursive=True)):
        text = open(path).read()
        new = respell_code(text, names, fields)
        if new != text:
            open(path, "w").write(new)


main()
