#!/usr/bin/env python3
"""Lists the places of src/ that read like the older language, a section for each point of docs/DESIGN-PASS.md.

    python3 tools/places.py [TOP]          the places, and how many there are of each point
    python3 tools/places.py --counts [TOP] the counts alone

It goes by text, and so also finds places that are right as they stand; the page says of each why it stays.
"""
import glob
import re
import sys
from collections import defaultdict

# Each point has patterns over single lines of code.
LINES = {
    1: [
        (r"-> Option<Fault>", "a refusal as an Option"),
        (r"fn (add|pin|insert)\(&mut self.*-> bool", "a refusal as a bool"),
        (r"^pub fn \w+\(\) -> u8", "a number that says nothing"),
        (r"^\s*(Refused|Failed|Absent|Missing)\b", "a case of an enum of our own in place of Err or None"),
        (r"None => None,|Err\(_\) => Err\(|Some\((\w+)\) => Some\(\1\),|Ok\((\w+)\) => Ok\(\2\),|return Err\(fault\)|return Some\(fault\)",
         "a case handed on by hand"),
        (r"^\s*None => \w+\(None\)|^\s*None => (0|true|false|turn),", "a default by hand"),
    ],
    3: [(r"for \w+ in 0(usize)?\.\.", "a loop that counts")],
    4: [
        (r"fn (is|equal|same|is_tag|is_key)\(self, other|fn (equal|is_tag)\(", "equality by hand"),
        (r"\w\.is\(\w", "equality by hand, called"),
        (r"\bas (u8|u16|u32|u64|usize)\b", "a conversion by hand"),
        (r"Some\(value\) => Some\(\(", "a conversion by hand"),
        (r"^fn (ended|open_from|no_entry|start_of|finished|narrowed)\(|^pub(\(crate\))? fn (start_of|finished|narrowed)\(", "a maker or a conversion as a function of no type"),
        (r"^const BLANK", "a value by hand that a derive makes"),
    ],
    6: [
        (r"^    \w+: \[\w+; \w+\],", "an array in a struct"),
        (r"^    (pub\(crate\) )?(len|count|size): usize,", "a length beside a buffer"),
        (r"^    (pub\(crate\) )?\w+: &'a mut (\[\w+\]|Entry),", "a lent buffer in a struct"),
        (r"^    (pub\(crate\) )?line: Line,", "a line's numbers beside a buffer"),
    ],
    7: [
        (r"^pub trait Test|^impl Test<|^struct (Same|Other|Names|Seen|Needed)\b", "a test as a type of its own"),
        (r"any_passes\(|retain\(&mut|count\(&self", "a test as a value of such a type"),
        (r"match (point|self)\.(stage|sheet) \{", "a switch on which step"),
    ],
}


def sources(top):
    return sorted(glob.glob(top + "/crates/*/src/**/*.rt", recursive=True))


def code(path):
    for number, line in enumerate(open(path), 1):
        text = line.rstrip("\n")
        if not text.lstrip().startswith("//"):
            yield number, text


def by_line(top, point):
    for path in sources(top):
        for number, text in code(path):
            if re.match(r"\s*(ensures|requires|ghost)\b", text):
                continue
            for pattern, what in LINES[point]:
                if re.search(pattern, text):
                    yield "%s:%d: %s: %s" % (path[len(top) + 1:], number, what, text.strip())
                    break


def handed_on(top):
    """A case that a `let ... else` hands on as it is: Err, None or a refusal."""
    for path in sources(top):
        lines = list(code(path))
        for (number, text), (_, then) in zip(lines, lines[1:]):
            if re.search(r"let (Ok|Some)\(.*\) = .* else \{$", text) and re.match(r"\s*return (Err\(|None|false)", then):
                yield "%s:%d: a case handed on by hand: %s" % (path[len(top) + 1:], number, text.strip())


def functions(top):
    """Path, name, parameters, clauses and body of each function; a trait's function may have no body."""
    head = re.compile(r"^( *)(?:pub(?:\(crate\))? )?fn (\w+)(?:<[^(]*>)?\(", re.M)
    for path in sources(top):
        text = "\n".join(t for _, t in code(path))
        for m in head.finditer(text):
            depth, at = 1, m.end()
            while depth:
                depth += {"(": 1, ")": -1}.get(text[at], 0)
                at += 1
            params, indent, clauses, body = text[m.end():at - 1], m.group(1), [], []
            lines = text[at:].split("\n")
            rest = iter(lines[1:])
            if lines[0].rstrip().endswith("{"):
                body = [lines[0]]
            elif not lines[0].rstrip().endswith(";"):
                for line in rest:
                    if line == indent + "{" or line == indent + "{}":
                        body = [line]
                        break
                    clauses.append(line)
                    if line.rstrip().endswith(";"):
                        break
            if body and not body[0].endswith("}"):
                for line in rest:
                    body.append(line)
                    if line == indent + "}":
                        break
            yield path[len(top) + 1:], m.group(2), params, "\n".join(clauses), "\n".join(body)


def twins(top):
    """Functions and types of two places with one name and one shape."""
    shapes = defaultdict(list)
    for path, name, _, _, body in functions(top):
        shape = re.sub(r"\s+", " ", re.sub(r"\b[0-9_]+\b", "N", body)).strip()
        if len(shape) > 20 and "/tests" not in path:
            shapes[(name, shape)].append("%s: fn %s" % (path, name))
    types = defaultdict(list)
    for path in sources(top):
        text = open(path).read()
        for m in re.finditer(r"^(?:pub )?(struct|enum) (\w+)[^;{]*\{(.*?)^\}", text, re.M | re.S):
            fields = re.sub(r"ghost [^\n]*\n|//[^\n]*\n|pub(\(crate\))? ", "\n", m.group(3))
            types[(m.group(2), re.sub(r"\s+", " ", fields))].append("%s: %s %s" % (path[len(top) + 1:], m.group(1), m.group(2)))
    for group in list(shapes.values()) + list(types.values()):
        if len(group) > 1:
            yield " = ".join(group)
    lent = [(p, n) for p, n, _, _, _ in functions(top) if n.endswith("_lent")]
    for path, name in lent:
        yield "%s: fn %s = fn %s" % (path, name, name[:-5])


def facts(top):
    """Facts in the contracts of three or more functions of a crate, and parameters that three or more functions share."""
    where = defaultdict(set)
    for path, name, _, clauses, _ in functions(top):
        crate = path.split("/")[1]
        for clause in re.findall(r"(?:ensures|requires)(?: \w+)? \{ (.*) \}", clauses):
            text = re.sub(r"\b(\w+)\.(old|new|now)\b", r"x.\2", clause)
            if text.startswith("result ≡ (") or len(text) < 12:
                continue
            where[(crate, text)].add(name)
    for (crate, text), names in sorted(where.items()):
        if len(names) >= 3:
            yield "%s: %s: { %s }" % (crate, ", ".join(sorted(names)), text)
    shared = defaultdict(set)
    for path, name, params, _, _ in functions(top):
        names = [q.split(":")[0].replace("mut ", "").strip() for q in re.sub(r"<[^>]*>|\([^)]*\)", "", params).split(",") if ":" in q]
        names = [n for n in names if n not in ("rt", "self", "name", "heap", "_rt")]
        for i in range(len(names)):
            for j in range(i + 3, len(names) + 1):
                shared[tuple(names[i:j])].add((path, name))
    for names, found in sorted(shared.items()):
        if len(found) >= 3 and not any(set(names) < set(o) and len(shared[o]) >= len(found) for o in shared):
            yield "(%s): %s" % (", ".join(names), ", ".join(sorted("%s %s" % f for f in found)))


def searches(top):
    for path, name, _, _, body in functions(top):
        if re.search(r"for \w+ in [^{]*\{\s*if [^{]*\{\s*return Some", body):
            yield "%s: a list searched by hand: fn %s" % (path, name)


def proofs(top):
    count = 0
    for path in sorted(glob.glob(top + "/crates/*/proofs/**/*.antt", recursive=True)):
        count += 1
        yield "%s: %d lines" % (path[len(top) + 1:], len(open(path).readlines()))


def main():
    args = [a for a in sys.argv[1:] if a != "--counts"]
    top = args[0].rstrip("/") if args else "."
    found = {p: list(by_line(top, p)) for p in LINES}
    found[1] += handed_on(top)
    found[2] = list(twins(top))
    found[5] = list(facts(top))
    found[6] += searches(top)
    found[8] = list(proofs(top))
    for point in sorted(found):
        print("point %d: %d" % (point, len(found[point])))
        if "--counts" not in sys.argv:
            for line in found[point]:
                print("    " + line)


main()
