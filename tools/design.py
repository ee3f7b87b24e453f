#!/usr/bin/env python3
"""Counts the places of docs/DESIGN-PASS.md in the tracked sources of this checkout, point by point.

    tools/design.py [--list]

With --list each place is printed, and not the counts alone.
"""
import collections
import re
import subprocess
import sys

INTEGERS = r"\b[ui](8|16|32|64|size)\b"


def tracked(*patterns):
    out = subprocess.run(["git", "ls-files", *patterns], capture_output=True, text=True, check=True)
    return [p for p in out.stdout.split() if "/must-fail/" not in p]


def functions(path):
    """(name, parameters, clauses, body, line) of each function of a file."""
    text = open(path).read()
    for m in re.finditer(r"^( *)(?:pub(?:\(crate\))? )?(?:extern \"C\" )?fn (\w+)(?:<[^(]*>)?\(", text, re.M):
        depth, i = 1, m.end()
        while depth:
            depth += {"(": 1, ")": -1}.get(text[i], 0)
            i += 1
        parameters = [p.strip() for p in re.split(r",(?![^\[<(]*[\]>)])", text[m.end() : i - 1]) if p.strip()]
        start = re.compile(r"^%s\{|\{$" % m.group(1), re.M).search(text, i)
        end = text.find("\n%s}" % m.group(1), start.start()) if start else i
        if start is None or (";" in text[i : start.start()] and "{" not in text[i : start.start()]):
            continue
        yield m.group(2), parameters, text[i : start.start()], text[start.start() : end], text.count("\n", 0, m.start()) + 1


def lines(paths, pattern, keep=lambda line: True):
    for path in paths:
        for number, line in enumerate(open(path), 1):
            if re.search(pattern, line) and keep(line):
                yield "%s:%d: %s" % (path, number, line.strip())


def own_options(sources):
    """Enums with a variant that stands for no answer, flags with a value beside them, and numbers for kinds."""
    for path in sources:
        text = open(path).read()
        for m in re.finditer(r"^(?:pub(?:\(crate\))? )?enum (\w+) \{\n(.*?)^\}", text, re.M | re.S):
            if re.search(r"^    (Refused|Broken|Failed|Nothing|Malformed|None|NotHeld)\b", m.group(2), re.M):
                yield "%s: enum %s" % (path, m.group(1))
        for m in re.finditer(r"^(?:pub(?:\(crate\))? )?struct (\w+) \{\n(.*?)^\}", text, re.M | re.S):
            for field in re.findall(r"^    (?:pub )?(\w+): bool,", m.group(2), re.M):
                yield "%s: flag %s of %s" % (path, field, m.group(1))
            for field in re.findall(r"^    (?:pub )?(side|shade|code|kind|element): u(?:8|32),", m.group(2), re.M):
                yield "%s: number %s of %s" % (path, field, m.group(1))
        for name, parameters, clauses, body, line in functions(path):
            if re.search(r"refusal: &mut u32", " ".join(parameters)):
                yield "%s:%d: number for a refusal in %s" % (path, line, name)


def twins(sources):
    """Functions and structs that are the same but for names, integer types and numbers."""
    groups = collections.defaultdict(list)
    for path in sources:
        for name, parameters, clauses, body, line in functions(path):
            text = re.sub(r"//[^\n]*", "", " ".join(parameters) + clauses.split("requires")[0].split("ensures")[0] + body)
            if len(body.split()) < 8:
                continue
            text = re.sub(INTEGERS, "int", text)
            text = re.sub(r"\b\d[\d_a-fx]*\b", "0", text)
            text = re.sub(r"\b[A-Z][A-Z_0-9]*\b", "C", text)
            words = {}
            text = re.sub(r"\b[a-z_]\w*\b", lambda m: words.setdefault(m.group(0), "n%d" % len(words)), text)
            groups[re.sub(r"\s+", "", text)].append("%s:%d: %s" % (path, line, name))
        source = open(path).read()
        for m in re.finditer(r"^(?:pub(?:\(crate\))? )?struct (\w+) \{\n(.*?)^\}", source, re.M | re.S):
            fields = re.sub(r"//[^\n]*", "", m.group(2))
            if fields.count(",") > 1:
                text = re.sub(r"\w+:", "f:", re.sub(INTEGERS, "int", fields))
                groups["struct" + re.sub(r"\s+", "", text)].append("%s: struct %s" % (path, m.group(1)))
    for group in groups.values():
        if len(group) > 1:
            yield " = ".join(group)


def loops(sources):
    yield from lines(sources, r"^\s*(while|loop)\b")


def by_hand(sources):
    """Equality, zero values, conversions and printing in functions of their own."""
    yield from lines(sources, r"\bfn (same|equal\w*|compare\w*|none|nothing|start|number|code|size|fault_number|print_\w+|bits_of_\w+|\w+_of_bits|bits_of|of_bits|signed|is_digit|is_nan|is_infinite|is_finite|less|at_most\w*|both)\b")


def travelling(sources):
    """Pairs of parameters that stand together in three functions of a crate or more, and relations in as many requires."""
    pairs, facts = collections.defaultdict(set), collections.defaultdict(set)
    for path in sources:
        crate = path.split("/")[1]
        if crate in ("yurdelmiz", "yurdelmiz_c"):
            continue
        for name, parameters, clauses, body, line in functions(path):
            named = sorted(p for p in parameters if ":" in p and "impl Print" not in p)
            for i, one in enumerate(named):
                for other in named[i + 1 :]:
                    pairs[crate, one, other].add(name)
            for requires in re.findall(r"requires \{(.*)\}", clauses):
                for fact in re.findall(r"\b([A-Z][A-Za-z]+)\b", requires):
                    facts[fact].add(path + " " + name)
                if "checked_at" in requires:
                    facts["checked_at"].add(path + " " + name)
    for (crate, one, other), names in sorted(pairs.items()):
        if len(names) > 2:
            yield "%s: %s, %s in %s" % (crate, one, other, ", ".join(sorted(names)))
    for fact, places in sorted(facts.items()):
        if len(places) > 2 and fact not in ("Ok", "Passed"):
            yield "%s required by %d functions" % (fact, len(places))


def buffers(sources):
    """A length beside a buffer, padded tables, and arrays of fixed size that hold fewer bytes."""
    yield from lines(sources, r"^\s*(pub )?(fn )?.*(size: usize|\bhave: (u8|usize)\b|n: usize)|\[u8; 3\d\d\]|window: &mut \[u8\]", lambda line: "ghost" not in line and "//" not in line)


def switches(sources):
    """A match or chain of tests on a parameter that says which step to run."""
    yield from lines(sources, r"match (kind|form|self|element|fault)\b")


def answers(files):
    """Answers, and the chains of .before and goal.at in them."""
    for path in files:
        text = open(path).read()
        yield "%s: %d answers, %d .before, %d goal.at" % (path, len(re.findall(r"^pub \S+ : goal\.", text, re.M)), text.count(".before"), text.count("goal.at."))


def main():
    sources = tracked("crates/*/src/*.rt")
    points = [
        ("1 own options and results, flags, numbers for kinds", list(own_options(sources))),
        ("2 twins", list(twins(sources))),
        ("3 loops by hand", list(loops(sources))),
        ("4 written by hand", list(by_hand(sources))),
        ("5 facts and parameters that travel together", list(travelling(sources))),
        ("6 buffers with a length beside", list(buffers(sources))),
        ("7 switches", list(switches(sources))),
        ("8 files of answers", list(answers(tracked("crates/*/proofs/*Answers.antt")))),
    ]
    for title, places in points:
        print("%s: %d" % (title, len(places)))
        if "--list" in sys.argv:
            for place in places:
                print("    " + place)
    text = "".join(open(p).read() for p in tracked("crates/*/proofs/*Answers.antt"))
    print("answers: %d, .before: %d, goal.at: %d, lines: %d" % (len(re.findall(r"^pub \S+ : goal\.", text, re.M)), text.count(".before"), text.count("goal.at."), text.count("\n")))


main()
