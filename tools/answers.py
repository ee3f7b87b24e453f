#!/usr/bin/env python3
"""Turns a crate's proofs/F/Proof.antt of the form `tie.close (tie.spec ..)` into Invariants.antt and Answers.antt.

usage: answers.py NAMES CRATE [FUNCTION..]

NAMES is the names.json that `rt check --generated DIR --old-names` writes in the folder CRATE. Each answer under
`tie.Need-X` becomes the answer to that goal, with the steps and the places that it cites by their names there; what
`tie.spec` was given in place is left to the check. A line 'look:' says what is to be seen to by hand. It goes by text and proves
nothing."""

import json
import os
import re
import sys

TOKEN = re.compile(r"[A-Za-z+_][A-Za-z0-9_'₀-₉ℕℤκμ-]*")
KINDS = r"^(?:overflow|nonzero|slice_bounds|bounds|slice-bounds)-"


def plain(word):
    return word.replace("_", "-")


def snake(word):
    return word.replace("-", "_")


def blocks(text):
    """The file's top: comments and `use` lines; then declarations, each with what stands above it."""
    lines = text.split("\n")
    at = 0
    while at < len(lines) and (lines[at].startswith(("--", "use ", "pub use ")) or not lines[at].strip()):
        at += 1
    # A comment right above the first declaration is its own.
    while at > 0 and lines[at - 1].startswith("--") and not all(l.startswith("--") for l in lines[:at]):
        at -= 1
    head, rest = lines[:at], lines[at:]
    out, block = [], []
    for line in rest:
        if not line.strip():
            if block:
                out.append("\n".join(block))
            block = []
        else:
            block.append(line)
    if block:
        out.append("\n".join(block))
    return head, out


def convert(path, names, crate, function):
    with open(path, encoding="utf-8") as f:
        text = f.read()
    looks = []
    if "tie.close" not in text:
        return None, None, ["no tie.close"]
    head, parts = blocks(text)
    needs = {}
    for old, new in names["needs"]:
        needs[plain(old)] = new
    places = {}
    steps = {}
    called = {}
    for (old, parent, (step, new_step), function_of, _), new in zip(names["places"], names["places_by_name"]):
        places[plain(old)] = new
        if function_of:
            called[new_step] = function_of
        # A step that Rattle names by a number is not cited by its place; a variable's field has that spelling too.
        if step and not (re.fullmatch(re.escape(step) + r"-\d+", new_step)):
            steps[plain(step)] = new_step
    # What an arm's pattern binds and tells, and one name for all its places.
    told = {}
    arms = [a for a in names["arms"] if a]
    for (old, *_), arm, new in zip(names["places"], names["arms"], names["places_by_name"]):
        if not arm:
            continue
        for field, step, path in arm[2]:
            if path and path != ["ensures"]:
                told[(plain(step), ".".join(path))] = f"{arm[0]}.{field}"
        last_name = [n for a, n in zip(names["arms"], names["places_by_name"]) if a and a[0] == arm[0]][-1]
        places[plain(old)] = last_name
    loops = {plain(old): (new, live) for ((old, new), live) in names["loops"]}
    changed = names["changed"]

    def need(word):
        w = plain(word)
        for x in (w, re.sub(KINDS, "", w)):
            if x in needs:
                return needs[x]
        return None

    parent = {plain(old): up and plain(up) for (old, up, _, _, _) in names["places"]}
    at_goal = {new: plain(old_place) for (_, new), (old_place, _) in zip(names["needs"], names["asked_at"])}

    def walk(place, n):
        while n and place:
            place, n = parent.get(place), n - 1
        return place

    def by_name(part, root, place, where):
        """Facts of earlier places named on the root itself, and earlier places by `goal.at`."""
        held = {root: place}
        # A place bound by a `let`.
        while True:
            m = re.search(r"let ([\w']+) = (" + "|".join(map(re.escape, held)) + r")((?:\.before)*) in[ \n]\s*", part)
            if not m:
                break
            to = walk(held[m[2]], m[3].count(".before"))
            if to is None or m[1] in held:
                looks.append(f"a let of a place: {m[0].strip()}")
                part = part[: m.start()] + "let\u200b" + part[m.start() + 3 :]
                continue
            held[m[1]] = to
            part = part[: m.start()] + part[m.end() :]
        part = part.replace("let\u200b", "let")

        def one(m):
            to = walk(held[m[1]], m[2].count(".before"))
            if to is None:
                looks.append(f"a place: {m[0]}")
                return m[0]
            if m[3]:
                return root + m[3]
            if to == place:
                return root
            brought.add(places[to])
            if where in places.values():
                brought.add(where)
            return f"(goal.at.{where} {root}).{places[to]}"

        first = part.find("=", part.find("\n" + where if False else "\n"))
        return re.sub(r"(?<![\w'.-])(" + "|".join(map(re.escape, held)) + r")((?:\.before)*)(\.(?!before)[a-z_0-9][\w'-]*)?(?![\w'-])(?= |\.|\)|,|;|$|\n)", one, part)

    # A function from a place to an earlier one is a name for some `.before`.
    ways = {}
    kept_parts = []
    for part in parts:
        m = re.match(r"(?:--[^\n]*\n)*abbrev (\S+) : tie\.\S+ → tie\.\S+\n(\S+) (\w+) = (\w+)((?:\.before)+)$", part.rstrip())
        if m and m[3] == m[4]:
            ways[m[1]] = m[5]
        else:
            kept_parts.append(part)
    parts = kept_parts
    if ways:
        word = "|".join(sorted(map(re.escape, ways), key=len, reverse=True))
        applied = re.compile(rf"\((?:{word}) (\w[\w']*(?:\.before)*)\)|(?<![\w'.-])(?:{word}) (\w[\w']*(?:\.before)*)(?![\w'])")
        def unfold(m):
            name = re.match(rf"\(?({word}) ", m[0])[1]
            return (m[1] or m[2]) + ways[name]
        for i, part in enumerate(parts):
            while True:
                turned = applied.sub(unfold, part)
                if turned == part:
                    break
                part = turned
            parts[i] = part

    # 1. The names of the answers.
    new_names = {}
    requires = set()
    for part in parts:
        for line in part.split("\n"):
            m = re.match(r"\s*(?:pub )?(\S+) : (?:\(t : ℕ\) → )?tie\.Need-(\S+)", line)
            if m:
                new = need(m[2])
                if new is None:
                    looks.append(f"no goal for {m[1]} : Need-{m[2]}")
                    new = "NOGOAL-" + m[2]
                new_names[m[1]] = new
                if re.search(r"-requires(-|$)", new):
                    requires.add(new)
    out, inv, brought = [], [], set()
    for part in parts:
        lines = part.split("\n")
        first = next((l for l in lines if not l.startswith("--") and l.strip()), "")
        if "tie.close" in part:
            inline = re.findall(r"\(λ c(?: κs)?\. (?!search rules\))[^\n]*", part)
            for it in inline:
                looks.append("in place: " + it.strip())
            continue
        m = re.match(r"abbrev (invariant|decreases)-(\S+) : tie\.", first)
        if m and plain(m[2]) in loops:
            new, live = loops[plain(m[2])]
            index = [plain(o) for ((o, _), _) in names["loops"]].index(plain(m[2]))
            body = part
            eq = next(i for i, l in enumerate(lines) if re.match(rf"{m[1]}-{re.escape(m[2])} .*=", l))
            params = lines[eq].split("=", 1)[0].split()[1:]
            rest = "\n".join([lines[eq].split("=", 1)[1]] + lines[eq + 1 :])
            names_of = {}
            for p in params:
                base = p.rstrip("₀")
                names_of[p] = ("l.initial." if p.endswith("₀") else "l.") + base
            rest = TOKEN.sub(lambda t: names_of.get(t.group(), t.group()), rest)
            comment = "\n".join(l for l in lines if l.startswith("--"))
            inv.append((comment + "\n" if comment else "") + f"abbrev pub {m[1]}-{new} : goal.{m[1]}-{new}\n{m[1]}-{new} l ={rest}")
            continue
        if m:
            looks.append("loop? " + first)
        part = re.sub(r"(tie\.(?!Need)[\w'-]+) invariant-\S+ decreases-[^\s)]+", r"\1", part)
        part = re.sub(r"tie\.Need-(\S+)((?: invariant-\S+| decreases-\S+)*)", lambda k: "goal." + (need(k[1]) or "NOGOAL-" + k[1]), part)
        for old, new in new_names.items():
            part = re.sub(rf"(?<![\w'.·-]){re.escape(old)}(?![\w'-])", new, part)
        for new in new_names.values():
            part = re.sub(rf"(?m)^{re.escape(new)} : ", f"pub {new} : ", part)
        # 2. Places.
        m = re.search(r"(?m)^(?:pub )?(\S+) : goal\.", part)
        if m and m[1] in at_goal:
            lhs = re.search(rf"(?m)^{re.escape(m[1])} ((?:\w+ )*?)(\w+)(?: κs)? =", part)
            if lhs:
                head_end = part.find("=", lhs.start()) + 1
                part = part[:head_end] + by_name(part[head_end:], lhs[2], at_goal[m[1]], m[1])
        else:
            m = re.search(r"(?m)^(?:abbrev )?(\S+) : (?:\{[^}]*\} → )?\((\w+) : tie\.([\w'-]+)\)|^(?:abbrev )?(\S+) : ()tie\.([\w'-]+) →", part)
            if m:
                name, var, old_place = m[1] or m[4], m[2], plain(m[3] or m[6])
                lhs = re.search(rf"(?m)^{re.escape(name)} (\w+)", part)
                if old_place in places and lhs:
                    if re.search(r"→ tie\.", part.split("\n" + name)[0]):
                        looks.append(f"gives a place: {name}")
                    else:
                        cut = part.find("\n", part.find(name)) if not var else part.find(")", part.find("tie.")) + 1
                        body = part[cut:]
                        if var and var != lhs[1]:
                            looks.append(f"two names of a place: {name}")
                        head_of = part[:cut]
                        body = by_name(body, lhs[1], old_place, places[old_place])
                        part = head_of + body

        def place(k):
            new = places.get(plain(k[1]), "NOPLACE-" + k[1])
            brought.add(new)
            return new

        part = re.sub(r"tie\.(\w[\w'-]*)", place, part)
        # 3. Steps.
        for w in re.findall(r"NOPLACE-(\S+)", part):
            looks.append("no place " + w)
        # 2. Steps, behind a dot.
        part = re.sub(r"\.([a-z][\w'-]*)\.(given(?:\.[01])+)", lambda k: "." + told[(plain(k[1]), k[2])] if (plain(k[1]), k[2]) in told else k[0], part)
        part = re.sub(r"\.Node-at(?![\w'-])", "." + steps.get("node-at", "Node-at"), part)
        part = part.replace(".type-inv", ".type_inv")
        part = re.sub(r"\.(args|ranges|fits)\.([a-z][\w'-]*)", lambda k: f".{k[1]}.{snake(k[2])}", part)
        part = re.sub(r"\.fits\.(?=[a-z])", ".ranges.", part)
        part = re.sub(r"\.pre(?![\w'-])", ".requires", part)
        if "in-range" in steps:
            part = part.replace(".is_in_range", "." + steps["in-range"])
        part = re.sub(r"\.([a-z_][\w'-]*)", lambda k: "." + steps[plain(k[1])] if plain(k[1]) in steps and k[1] not in ("before", "args") else k[0], part)
        of_rattle = set(steps.values()) | set(places.values()) | set(new_names.values()) | {"new", "ensures", "requires"} | {a[0] for a in arms}
        part = re.sub(r"(?<!goal\.at)(?<!goal)\.([a-z][\w]*(?:-[\w']+)+)", lambda k: k[0] if k[1] in of_rattle or k[1].startswith(("invariant-", "decreases-", "iterator-")) else "." + snake(k[1]), part)
        part = re.sub(r"(\.wrapping_[\w'-]+\.ensures)(?!\.value)", r"\1.value", part)

        def last(k):
            params = names["params"].get(called.get(k[1], ""), [])
            at = k[2].count(".1")
            if at >= len(params):
                return k[0]
            return f".{k[1]}.new.{params[at]}"

        part = re.sub(r"\.([\w'-]+)\.new((?:\.1)*)\.0(?![\w.])", last, part)
        part = re.sub(r"\.([\w'-]+)\.new((?:\.1)*)\.0(?=\.)", last, part)
        for new in requires:
            part = re.sub(rf"(?m)^({re.escape(new)} \w+(?: \w+)*?) κs =", r"\1 =", part)
        if re.search(r"\bκs\b", part):
            looks.append("κs: " + part.split("\n")[0])
        if re.search(r"\.new\.1\.", part) or re.search(r"\.1\.1", part):
            looks.append(".new.1: " + part.split("\n")[0])
        out.append(part)
    # 3. Lemmas of the file's own, in snake case.
    own = {}
    for part in out:
        for w in re.findall(r"(?m)^(?:abbrev )?([a-z][\w'-]*) : ", part):
            if "-" in w and w not in new_names.values():
                own[w] = snake(w)
    for old, new in own.items():
        out = [re.sub(rf"(?<![\w'.·-]){re.escape(old)}(?![\w'-])", new, part) for part in out]
    # A width that was found by itself.
    out = [re.sub(r"to_z-of_z \((record|sfits_within|sfits_widen)", r"to_z-of_z {w = w64} (\1", part) for part in out]
    keep = []
    for line in head:
        if re.match(rf"use Rattle\.{crate}\.proofs\.\S*\.(Statement|Tie)\b", line):
            continue
        keep.append(line)
    module = function.replace("/", ".")
    places_line = f"use Rattle.{crate}.proofs.{module}.Goals.{{{', '.join(sorted(brought))}}}\n" if brought else ""
    if any("{w = w64}" in part for part in out) and not any(re.search(r"\bw64\b", l) for l in keep):
        keep = [*[l for l in keep if l.strip()], "use mir.Syntax.{w64}"]
    answers = "\n".join(keep).rstrip("\n") + f"\nuse Rattle.{crate}.proofs.{module}.Goals as goal\n" + places_line + "\n" + "\n\n".join(out) + "\n" if out else None
    invariants = None
    if inv:
        body = "\n\n".join(inv)
        used = set(TOKEN.findall(body)) | set(re.findall(r"[^\s\w(){}.]+", body))
        uses = []
        for line in keep:
            m = re.match(r"use (\S+)\.\{(.*)\}", line)
            if m:
                wanted = [x.strip() for x in m[2].split(",") if x.strip() in used or x.strip().strip("◌") in body]
                if wanted:
                    uses.append(f"use {m[1]}.{{{', '.join(wanted)}}}")
        invariants = "\n".join(uses) + f"\nuse Rattle.{crate}.proofs.{module}.Given as goal\n\n" + body + "\n"
    return answers, invariants, looks


def main():
    with open(sys.argv[1], encoding="utf-8") as f:
        names = json.load(f)
    folder = os.path.abspath(sys.argv[2])
    crate = os.path.basename(folder)
    wanted = sys.argv[3:]
    top = os.path.join(folder, "proofs")
    for where, _, files in sorted(os.walk(top)):
        if "Proof.antt" not in files:
            continue
        function = os.path.relpath(where, top)
        if wanted and function not in wanted:
            continue
        key = f"Rattle-{crate}-proofs.{function.replace('/', '.')}.Lts"
        if key not in names:
            print(f"look: {function}: no names")
            continue
        answers, invariants, looks = convert(os.path.join(where, "Proof.antt"), names[key], crate, function)
        for it in looks:
            print(f"look: {function}: {it}")
        if answers is None and invariants is None and looks and looks[0] == "no tie.close":
            continue
        os.remove(os.path.join(where, "Proof.antt"))
        for name, it in (("Answers.antt", answers), ("Invariants.antt", invariants)):
            if it:
                with open(os.path.join(where, name), "w", encoding="utf-8") as f:
                    f.write(it)


if __name__ == "__main__":
    main()
