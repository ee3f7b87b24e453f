#!/usr/bin/env python3
"""Spells the repository's own words of specs/ and proofs/ in snake case: definitions, lemmas, fields, constructors,
variables and the names that modules are brought in under. Run once, at the top, after the kit's port.py.

A word is the repository's own where a file of specs/, or one right in proofs/, declares it: by a signature, as a
field, as a variable, or after `as`. It is then spelled anew in every .rt and .antt file, in code and between
backquotes in comments. Types, modules, names of Rattle source and names that the check makes stay as they are.
It stops before it writes anything where two words would fall together."""

import os
import re
import sys

WORD = r"[A-Za-z_][A-Za-z0-9_'₀-₉ℕℤκ-]*"
# A word that a signature declares, whatever stands before it.
SIGNATURE = re.compile(r"^\s*(?:(?:pub|abbrev|unfoldable|private|instance)\s+)*(" + WORD + r")\s*:(?!:)")
RULESET = re.compile(r"^\s*(?:pub\s+)?ruleset\s+(" + WORD + r")\s*=")
ALIAS = re.compile(r"\bas (" + WORD + r")")
# Several in front of one colon, in a bracket: (a b : T).
BOUND = re.compile(r"[({]\s*((?:" + WORD + r"\s+)*" + WORD + r")\s*:(?!:)")
LAMBDA = re.compile(r"λ\s+((?:" + WORD + r"\s+)*" + WORD + r")\s*\.")
LET = re.compile(r"\blet\s+(" + WORD + r")\b")
TOKEN = re.compile(r"(?<![A-Za-z0-9_'₀-₉ℕℤκ-])" + WORD)


def snake(word):
    word = re.sub(r"(?<=[a-z0-9])(?=[A-Z])", "_", word)
    return word.replace("-", "_").lower()


def is_old(word):
    return word[0].islower() and ("-" in word.strip("-") or re.search(r"[a-z0-9][A-Z]", word)) and word != snake(word)


def files(root):
    for folder, dirs, names in os.walk(os.path.join(root, "crates")):
        dirs[:] = sorted(d for d in dirs if d != "out")
        for name in sorted(names):
            if name.endswith((".rt", ".antt")):
                yield os.path.join(folder, name)


def declares(path):
    parts = path.split(os.sep)
    if not path.endswith(".antt"):
        return False
    return "specs" in parts or parts[-2] == "proofs"


def code_parts(text, comment):
    """(is_code, piece) in order: comments apart from code, strings of Rattle source with the comments."""
    piece = re.compile(r'"(?:\\.|[^"\\])*"|' + comment + r"[^\n]*" if comment == "//" else r"(?<!\S)--[^\n]*")
    at = 0
    for m in piece.finditer(text):
        yield True, text[at : m.start()]
        yield False, m.group()
        at = m.end()
    yield True, text[at:]


def declared(text):
    code = "".join(p if is_code else "" for is_code, p in code_parts(text, "--"))
    words = set()
    for line in code.splitlines():
        for found in (SIGNATURE.match(line), RULESET.match(line)):
            if found:
                words.add(found.group(1))
        words.update(ALIAS.findall(line))
        words.update(LET.findall(line))
        for pattern in (BOUND, LAMBDA):
            for names in pattern.findall(line):
                words.update(names.split())
    return words


def respell(text, new, comment):
    def word(m):
        return new.get(m.group(), m.group())

    out = []
    for is_code, piece in code_parts(text, comment):
        if is_code:
            out.append(TOKEN.sub(word, piece))
        elif piece.startswith('"'):
            out.append(piece)
        else:
            out.append(re.sub(r"`[^`]*`", lambda m: TOKEN.sub(word, m.group()), piece))
    return "".join(out)


def main():
    root = os.getcwd()
    texts = {}
    for path in files(root):
        with open(path, encoding="utf-8") as f:
            texts[path] = f.read()
    words = set()
    for path, text in texts.items():
        if declares(os.path.relpath(path, root)):
            words |= declared(text)
    new = {w: APART.get(w, snake(w)) for w in words if is_old(w) and w not in KEPT}
    together = {}
    for w, n in new.items():
        together.setdefault(n, set()).add(w)
    for w in words:
        if w in together and w not in new:
            together[w].add(w)
    clash = {n: sorted(ws) for n, ws in together.items() if len(ws) > 1}
    if "--list" in sys.argv:
        for w in sorted(new):
            print(w, new[w])
        print("together:", clash)
        return 0
    allowed = set(ALLOWED)
    if set(clash) - allowed:
        print("these fall together:", {n: clash[n] for n in clash if n not in allowed})
        return 1
    changed = 0
    for path, text in texts.items():
        turned = respell(text, new, "//" if path.endswith(".rt") else "--")
        if turned != text:
            with open(path, "w", encoding="utf-8") as f:
                f.write(turned)
            changed += 1
    print(f"{len(new)} words, {changed} files")
    return 0


# A lemma or a field that would get the name of the definition that it speaks of.
APART = {w: snake(w) + "_lem" for w in "step-outcome salvage-outcome label-with figures-allowed output-refused add-outcome least-motion second-line first-line extreme-of read-by day-outcome same-counts next-day".split()}
APART |= {"in-range": "is_in_range", "elevation-allowed": "elevation_is_allowed", "shade-allowed": "shade_is_allowed", "not-held": "is_not_held", "up-to": "up_to_time", "nan-bits": "nan_bits_lem"}

# A library has these.
KEPT = {"not-false"}

# Words that fall together where no file has both, or where one is a field, which is named behind a dot alone.
ALLOWED = ["argument_of_perigee", "mean_anomaly", "mean_motion", "step_by", "held_by", "labels_in"]

if __name__ == "__main__":
    raise SystemExit(main())
