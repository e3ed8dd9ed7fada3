#!/usr/bin/env python3
"""Brings the generated names that a proof by hand cites to today's, in the crates that are named.

usage: tools/respell_goals.py NAME..      at the top of the repository, each crate's dependencies built

`rt check --generated DIR --old-names` lists for each function how places, steps, loops and goals were called and are
called. In proofs/MODULE/F/Proof.antt `tie.Then1`, `.if1`, `tie.Need-returns-2` become what is listed. Dashes and
underscores are alike in the old names. A file that cites none is left as it is. Run it once for each crate: `returns` may be an old name and a new one."""

import json
import os
import re
import subprocess
import sys
import tempfile

WORD = r"[A-Za-z0-9_+·'μ₀-₉\-]+"


def norm(x):
    x = x.replace("_", "-")
    x = re.sub(r"^(After-)?(shared-|mut-)?slice-", r"\1slice-", x)
    x = re.sub(r"^overflow-", "", x)
    return re.sub(r"-?(\d+)$", r"\1", x)


def table(pairs):
    out = {}
    for old, new in pairs:
        if old:
            out.setdefault(norm(old), new)
    return out


def turn(text, d):
    places = [(p[0], n) for p, n in zip(d["places"], d["places_by_name"])]
    places += [(p[0], p[1]) for p in d.get("asked_at", [])]
    steps = [tuple(p[2]) for p in d["places"] if p[2] and p[2][0]]
    loops = [tuple(l[0]) for l in d["loops"]]
    needs = [tuple(n) for n in d["needs"]]
    place, step, need = table(places), table(steps), table(needs)
    known = {n for _, n in places} | {n for _, n in steps}
    loop = {}
    for old, new in loops:
        for head in ("invariant-", "decreases-"):
            loop[norm(head + old)] = head + new
        step.setdefault(norm(old), new)
        step.setdefault(norm(old + "-test"), new + "-test")

    def of_tie(m):
        w = m[1]
        if w.startswith("Need-"):
            return "tie.Need-" + need.get(norm(w[5:]), w[5:].replace("slice-bounds", "slice_bounds"))
        if norm(w) in loop:
            return "tie." + loop[norm(w)]
        return "tie." + (w if w in known else place.get(norm(w), w))

    def by_path(m):
        """A path of fields: only its first, or one behind `before`, can be a step."""
        parts = m[0].split(".")
        for i in range(1, len(parts)):
            w = parts[i]
            if w in ("before", "args", "requires", "ensures", "new", "now"):
                continue
            if w in known or not (i == 1 or parts[i - 1] == "before"):
                continue
            new = step.get(norm(w)) or step.get(norm(w.removesuffix("_lem")), w)
            # A step that Rattle adds has a count behind its name; a variable of that name is cited more often.
            if new.endswith("-1") and "-" not in w and parts[i - 1] != "before":
                continue
            parts[i] = new
            if i + 1 < len(parts) and (new.startswith("if-") or new.endswith("-test")):
                parts[i + 1] = {"taken": "true", "left": "false"}.get(parts[i + 1], parts[i + 1])
        # What is known further out is a field here too, so that only a place that is handed on needs `before`.
        while len(parts) > 2 and parts[1] == "before" and any(q != "before" for q in parts[2:]):
            del parts[1]
        return ".".join(parts)

    for arm in d["arms"]:
        for new, old, path in arm[2] if arm else []:
            for spelled in {old, (old or "").replace("_", "-")} - {None, ""}:
                if path:
                    text = re.sub(rf"\.{re.escape(spelled)}\.{re.escape('.'.join(path))}(?![\w\-])", f".{arm[0]}.{new}", text)
                else:
                    text = re.sub(rf"\.{re.escape(spelled)}\.rest(?![\w\-])", f".{arm[0]}.{new}.rest", text)
    text = re.sub(r"\.pre(?![\w\-])", ".requires", text)
    text = re.sub(r"(\.loop[\w\-]*)\.inv(?![\w\-])", r"\1.invariant", text)
    for p in d["places"]:
        names = d["params"].get(p[3] or "", [])
        for old in (p[2][0] if p[2] else None, p[2][1] if p[2] else None):
            for spelled in {old, (old or "").replace("_", "-")} - {None, ""}:
                text = re.sub(
                    rf"\.{re.escape(spelled)}\.(new|auto|kept|last)\.((?:1\.)*)0(?![\w.])",
                    lambda m: f".{spelled}.{ {'last': 'new', 'kept': 'auto'}.get(m[1], m[1])}.{names[len(m[2]) // 2]}" if len(m[2]) // 2 < len(names) else m[0],
                    text,
                )
    text = text.replace(".type-inv", ".type_inv").replace(".well-formed", ".well_formed")
    text = re.sub(r"(?<![\w.\-])tie\.(" + WORD + ")", of_tie, text)
    text = re.sub(r"(?<=\.args\.)[\w\-]+", lambda m: m[0].replace("-", "_"), text)
    lines = text.split("\n")
    for i, l in enumerate(lines):
        if not l.startswith("use "):
            lines[i] = re.sub(r"(?:(?<![\w.\-)])(?!tie\.)" + WORD + r"|\))(?:\." + WORD + ")+", by_path, l)
    return "\n".join(lines)


def flat(text):
    """`let at_x = c.before.before in`, of which only fields are cited: what is known further out is a field of `c`."""
    blocks = re.split(r"(\n\n|\n(?= *\(λ ))", text + "\n")
    for i, b in enumerate(blocks):
        while True:
            for m in re.finditer(r"(?m)^ *let ([\w·'\-]+) = ([\w·'\-]+)((?:\.before)+) in( \()?\n", b):
                n = re.escape(m[1])
                head = b[: m.start()]
                rest = (head[:-1] + " (\n" if m[4] else head) + b[m.end() :]
                if re.search(rf"(?<![\w.\-']){n}(?![\w\-'.])", rest):
                    continue
                rest = re.sub(rf"(?<![\w.\-']){n}\.before(?![\w\-])", m[2] + m[3] + ".before", rest)
                b = re.sub(rf"(?<![\w.\-']){n}\.(?=[\w])", m[2] + ".", rest)
                break
            else:
                break
        blocks[i] = b
    return "".join(blocks)[:-1]


def handed_on(text, d):
    """Places that are handed on: an arm is one place now, so that fewer `.before` lead out of it."""
    key = lambda x: re.sub(r"-?(\d+)$", r"\1", x.replace("_", "-"))
    at = {}
    for i, p in enumerate(d["places"]):
        at.setdefault(key(p[0]), i)
    parent = [at.get(key(p[1])) if p[1] else None for p in d["places"]]
    out = list(parent)
    for i, a in enumerate(d["arms"]):
        if a:
            for _ in range(a[1] - 1):
                out[i] = parent[out[i]] if out[i] is not None else None
    asked = {norm(n[0]): at.get(key(p[0])) for n, p in zip(d["needs"], d.get("asked_at", []))}

    def steps(i, n):
        """How many `.before` lead from place i to where n old ones led; None where no name is left for it."""
        j, k, new = i, i, 0
        for _ in range(n):
            j = parent[j] if j is not None else None
        while k is not None and k != j:
            k, new = out[k], new + 1
        return new if j is not None and k == j else None

    blocks = text.split("\n\n")
    for b, block in enumerate(blocks):
        m = re.search(r"(?<![\w.\-])tie\.Need-(" + WORD + ")", block) or re.search(r"-lts\.Need-(" + WORD + ")", block)
        if m:
            where = asked.get(norm(m[1]))
        else:
            m = re.search(r"(?<![\w.\-])tie\.((?:After|At|In)-" + WORD + r")\s*(?:→|\))", block)
            where = at.get(key(m[1])) if m else None
        if where is None:
            continue
        far = {"c": 0}

        def new_path(m):
            if m[1] not in far:
                return m[0]
            count = steps(where, far[m[1]] + m[2].count(".before"))
            return m[0] if count is None else "c" + ".before" * count

        lines = block.split("\n")
        for i, l in enumerate(lines):
            lines[i] = re.sub(r"(?<![\w.\-'])([\w·'\-]+)((?:\.before)+)(?![\w.\-])", new_path, l)
            m = re.match(r"^ *let ([\w·'\-]+) = ([\w·'\-]+)((?:\.before)+) in", l)
            if m and m[2] in far:
                far[m[1]] = far[m[2]] + m[3].count(".before")
        blocks[b] = "\n".join(lines)
    return "\n\n".join(blocks)


def main(names):
    for c in names:
        top = os.path.join("crates", c)
        with tempfile.TemporaryDirectory() as d:
            r = subprocess.run(["rt", "check", "--generated", os.path.join(d, "n"), "--old-names"], cwd=top, capture_output=True, text=True)
            path = os.path.join(d, "n", "names.json")
            if not os.path.exists(path):
                print(f"{c}: no names: {(r.stdout + r.stderr)[-600:]}")
                continue
            with open(path) as f:
                listed = json.load(f)
        n = 0
        for key, it in listed.items():
            m = re.fullmatch(r"Rattle-[^.]*\.(.*)\.Lts(.*)", key)
            if not m:
                continue
            file = os.path.join(top, "proofs", *m[1].split("."), "Proof.antt")
            if not os.path.exists(file):
                continue
            with open(file) as f:
                old = f.read()
            new = flat(turn(handed_on(old, it), it))
            if new != old:
                with open(file, "w") as f:
                    f.write(new)
                n += 1
        print(f"{c}: {n} files of {len(listed)} functions")


if __name__ == "__main__":
    main(sys.argv[1:])
