#!/usr/bin/env python3
"""Lists the places in crates/*/src that may be written in a plainer form, a heading for each kind.

    python3 tools/places.py [TREE] [--counts]

A row is a place to look at and no verdict. TREE is a checkout (this one by default), so that two commits
can be laid side by side.
"""
import collections
import itertools
import pathlib
import re
import sys

TREE = pathlib.Path(next((a for a in sys.argv[1:] if not a.startswith("-")), pathlib.Path(__file__).parents[1]))
ITEM = re.compile(r"^\s*(?:pub(?:\([^)]*\))? )?(?:extern \"C\" )?(?:final )?fn (\w+)")


def sources():
    for path in sorted(TREE.glob("crates/*/src/**/*.rt")):
        yield path.relative_to(TREE / "crates"), path.read_text().splitlines()


class Function:
    """A function: where it begins, its parameters, its result, its clauses and its body."""

    def __init__(self, path, line, name, head, clauses, body):
        self.where, self.name, self.head, self.clauses, self.body = f"{path}:{line}", name, head, clauses, body

    def parameters(self):
        inside = self.head[self.head.index("(") + 1:]
        return [p for p in re.findall(r"(\w+): ([^,)]+(?:\([^)]*\))?)", inside) if p[0] != "self"]


def functions():
    for path, lines in sources():
        for at, line in enumerate(lines):
            found = ITEM.match(line)
            if not found:
                continue
            depth, end = 0, at
            head, clauses, body, started = [], [], [], False
            for end in range(at, len(lines)):
                text = lines[end]
                clause = re.match(r"\s*(?:ensures|requires)\*?\b", text)
                if clause:
                    clauses.append(text.strip())
                elif not started and text.strip() in ("{", "where"):
                    started = text.strip() == "{"
                elif started:
                    if text.rstrip() == re.match(r"\s*", line).group() + "}":
                        break
                    body.append(text.strip())
                else:
                    head.append(text.strip())
                    if text.rstrip().endswith(";") and not clause:
                        break
                    if text.rstrip().endswith("{"):
                        started = True
                if clause and text.rstrip().endswith("};"):
                    break
            yield Function(path, at + 1, found.group(1), " ".join(head), clauses, body)


def enums():
    for path, lines in sources():
        text = "\n".join(lines)
        for found in re.finditer(r"enum (\w+)[^{;]*\{\n(.*?)\n\}", text, re.S):
            row = [l for l in found.group(2).splitlines() if re.match(r"    [A-Z]", l)]
            variants = [re.match(r"    (\w+)(.*)", l).groups() for l in row]
            yield f"{path}:{text[:found.start()].count(chr(10)) + 1}", found.group(1), variants


def structs():
    for path, lines in sources():
        text = "\n".join(lines)
        for found in re.finditer(r"struct (\w+)[^{;(]*\{\n(.*?)\n\}", text, re.S):
            fields = re.findall(r"^    (?:pub(?:\([^)]*\))? )?(\w+): ([^{}\n]+),$", found.group(2), re.M)
            yield f"{path}:{text[:found.start()].count(chr(10)) + 1}", found.group(1), fields


def matching(pattern):
    for path, lines in sources():
        for at, line in enumerate(lines):
            if re.search(pattern, line):
                yield f"{path}:{at + 1}", line.strip()


def own_options():
    """1. Own enums of the shape of Option or Result, flags beside values, numbers for kinds."""
    for where, name, variants in enums():
        loads = [bool(v[1].strip().startswith(("(", "{"))) for v in variants]
        if len(variants) == 2 and any(loads):
            yield where, f"enum {name} has the shape of Option or Result"
    yield from matching(r"\(bool, [A-Z]|-> \(bool, |Vec<bool>|-> Option<\(\)>")
    for where, name, fields in structs():
        flags = [f for f, kind in fields if kind == "bool"]
        if flags and len(flags) < len(fields):
            yield where, f"struct {name} has flags beside values: {' '.join(flags)}"
    yield from matching(r"\b(kind|format|code|b8): u8|return 0;$|Err\(_\) => 0,")


def twins():
    """2. Functions of one name with clauses of the same labels, and bodies that differ in names alone."""
    named = collections.defaultdict(list)
    shaped = collections.defaultdict(list)
    for f in functions():
        if "tests" in f.where:
            continue
        labels = tuple(re.match(r"(?:ensures|requires)\*? ?(\w*)", c).group(1) for c in f.clauses)
        named[f.name, labels].append(f)
        shape = re.sub(r"\b[A-Za-z_]\w*(::\w+)*|\b\d[\w]*|\"[^\"]*\"", "x", " ".join(f.body))
        if len(f.body) > 2:
            shaped[shape].append(f)
    for (name, labels), found in sorted(named.items()):
        if labels and len(found) > 2:
            yield from ((f.where, f"fn {name}, one of {len(found)} with the same clauses") for f in found)
    for found in shaped.values():
        if len(found) > 1:
            yield from ((f.where, f"fn {f.name}, whose body has the shape of {len(found) - 1} more") for f in found)


def loops():
    """3. Loops over a range, and loops with a counter."""
    yield from matching(r"^\s*(for \w+ in [^&].*\.\.|while |loop \{)")
    for path, lines in sources():
        for at, line in enumerate(lines):
            if re.match(r"\s*for ", line):
                body = itertools.takewhile(lambda l: not re.match(r"\s*\}$", l), lines[at + 1:])
                if any(re.search(r"^\s*\w+ (\+= 1|\+= \d|= \w+\.wrapping_add)|\.push\(", l) for l in body):
                    yield f"{path}:{at + 1}", line.strip()


def by_hand():
    """4. Conversions with clauses of their own, comparisons, words of values, and casts."""
    converts = r"number|from_number|byte|named|kind_named|condition_of|number_of|operand|of|question|\w+_word|\w+_name"
    for f in functions():
        told = f.clauses or f.name.endswith("_name")
        if told and re.fullmatch(converts, f.name) and not re.search(r"stack: StackNumber|bytes: |place: ", f.head):
            yield f.where, f"fn {f.name}"
    yield from matching(r"^impl.* (PartialEq|Eq|Ord|PartialOrd|Clone|Copy|Debug) for ")
    yield from matching(r"^(?!\s*//).*(?<!self) as (u8|u16|u32|u64|i8|i16|i32|i64|usize)\b")


def repeated_facts():
    """5. A view of a parameter in the contracts of three functions or more, a fact under one label, parameters that travel together."""
    viewed, labelled, pairs = (collections.defaultdict(list) for _ in range(3))
    for f in functions():
        said = " ".join(f.clauses)
        for word in set(re.findall(r"\(?([\w.]+) (?:self|\w+)(?:\.now|\.old|\.new)\b", said)):
            viewed[word].append(f)
        for clause in f.clauses:
            label = re.match(r"(?:ensures|requires)\*? ?(\w*)", clause).group(1)
            if label not in ("", "value", "answers"):
                labelled[label].append(f)
        for pair in itertools.combinations(sorted(f.parameters()), 2):
            pairs[pair].append(f)
    for kind, groups in (("the view", viewed), ("the fact", labelled)):
        for word, found in sorted(groups.items()):
            if len(found) > 2 and word not in ("result", "length"):
                yield found[0].where, f"{kind} {word} in {len(found)} contracts"
    for (a, b), found in pairs.items():
        if len(found) > 2:
            yield found[0].where, f"{a[0]}: {a[1]} and {b[0]}: {b[1]} in {len(found)} functions"


def buffers():
    """6. A buffer with a length beside it, a row of fields of one type, parallel arrays."""
    for where, name, fields in structs():
        kinds = collections.Counter(kind for _, kind in fields)
        if any(kind.startswith("[") for kind in kinds) and "usize" in kinds:
            yield where, f"struct {name} has an array beside a number"
        if any("[u8]" in kind for kind in kinds) and any(kind.startswith("Vec<") for kind in kinds):
            yield where, f"struct {name} has a slice beside a vector"
        yield from ((where, f"struct {name} has {n} fields {kind}") for kind, n in kinds.items() if n > 2)
    for where, name, variants in enums():
        sizes = [v[1].count(",") + 1 for v in variants if v[1].startswith("(")]
        if len(sizes) > 1 and len(set(re.sub(r"[(), ]", "", v[1])[:3] for v in variants if v[1].startswith("("))) == 1:
            if sizes != [1] * len(sizes):
                yield where, f"enum {name} holds lists by their lengths"


def switches():
    """7. A match whose arms call functions with the same arguments."""
    for path, lines in sources():
        for at, line in enumerate(lines):
            if not re.search(r"\bmatch .*\{$", line):
                continue
            arms = list(itertools.takewhile(lambda l: l.strip() != "}", lines[at + 1:]))
            calls = [m.group(1) for m in (re.search(r"=> [\w:]+\(([^()]*)\)\??,$", a) for a in arms) if m]
            if calls and collections.Counter(calls).most_common(1)[0][1] > 2:
                yield f"{path}:{at + 1}", line.strip()


def proofs():
    """8. Proof files, by crate: lines of answers and lemmas."""
    for crate in sorted(TREE.glob("crates/*/proofs")):
        files = [f for f in crate.rglob("*.antt") if f.name != "Lib.antt"]
        if files:
            lines = sum(len(f.read_text().splitlines()) for f in files)
            yield crate.parent.name, f"{len(files)} files, {lines} lines"


for list_places in (own_options, twins, loops, by_hand, repeated_facts, buffers, switches, proofs):
    rows = list(dict.fromkeys(list_places()))
    print(f"{list_places.__doc__} {len(rows)}")
    if "--counts" not in sys.argv:
        for where, what in rows:
            print(f"    {where}  {what}")
