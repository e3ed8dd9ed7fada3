"""differences.py LISTS DIFFERENCES.md: holds the rows of "Reads and writes" in docs/DIFFERENCES.md
against the proved lists.

A row's Lua column names places: `R[A+1]`, `R[A] to R[A+2]`, `R[A] up to the stack top`, `from
R[256]`, `K[B]`, the upvalue, the A of the word before. They are taken as read or as written by the
verb before them, or by the Rust column's where the row has none, and must be exactly what the lists
have of that kind, at the row's own word and, where the row speaks of A, B and C, at a word with
other fields. `with B,` and `with C,` speak of a word where that field is not 0. A row of several
opcodes names what they touch together. Rows on what document 02 leaves out, or settles by a
formula, are counted apart, each with its reason.
"""
import re, struct, subprocess, sys
from check import companions
from reading import CODE, NUMBERS, A, B, C, k

TOP = 700  # registers up to here stand for those up to the stack top

LEFT_OUT = [
    (r"^CONCAT", r"^B 0: reads R\[A-2\]|^B 1: |registers read, too", "CONCAT goes by its formula in lopcodes.h"),
    (r"^CLOSE ", r"", "what closing touches is left out"),
    (r"^CALL", r"has its frame", "CALL goes by its formula in lopcodes.h; temporaries are no results"),
    (r"^CLOSURE", r"", "what CLOSURE captures is left out, and prototypes are no registers, constants or upvalues"),
    (r"^VARARGPREP", r"", "what VARARGPREP touches is left out"),
]


def lists(program, words, p):
    text = struct.pack(f"<I{len(words)}I", len(words), *words)
    out = subprocess.run([program], input=text, capture_output=True, check=True).stdout
    n = struct.unpack_from(f"<{NUMBERS}I", out, 4 * NUMBERS * p)
    at = 0

    def take(count):
        nonlocal at
        at += count
        return n[at - count : at]

    def ranges():
        *pairs, count = take(7)
        return {("R", r) for i in range(count) for r in range(pairs[2 * i], pairs[2 * i + 1] + 1)}

    def top():
        first, count = take(2)
        return up_from(first) if count else set()

    def indices(kind):
        *found, count = take(4)
        return {(kind, index) for index in found[:count]}

    reads = ranges() | top() | indices("K") | indices("U")
    writes = ranges() | top() | indices("U")
    only = ranges()
    return {"read": reads, "write": writes | only, "only": only}


def up_from(first):
    return {("R", r) for r in range(first, TOP)} | {("T", TOP)}


def in_context(word):
    """The word among companions that make it good, and its number."""
    before, after = companions(word & 127)
    return [before, word, after, CODE["TFORCALL"], CODE["MOVE"]], 1


TOKEN = re.compile(
    r"(?P<with>with (?P<field>[BC]),)|(?P<verb>\b(?:reads?|writes?|written)\b)|(?P<upvalue>the upvalue\b)"
    r"|(?P<previous>the A of the word before|the register that the word before has as A)"
    r"|(?:(?P<from>from )|(?P<only_to>to ))?(?P<kind>[RK])\[(?P<first>[^\]]+)\]"
    r"(?: to R\[(?P<last>[^\]]+)\]|(?P<top> up to the stack top))?"
)


def value(expression, word):
    return eval(expression, {"__builtins__": {}}, {"A": A(word), "B": B(word), "C": C(word)})


def claims(lua, rust, word):
    """The places that the row names: by word (the row's, or one with B or C), then by verb."""
    text = re.sub(r"\([^)]*\)", "", lua).split(", and puts")[0].split("; `luaV_concat`")[0]
    verbs = re.findall(r"\b(read|write)", rust)
    verb, current, start = (verbs[0] if verbs else None), word, None
    named, fixed = {}, []  # fixed: what holds at every top, and so with B or C, too

    def name(places):
        named.setdefault(current, {}).setdefault(verb, set()).update(places)

    def registers(first, last):
        return {("R", r) for r in range(value(first, current), value(last, current) + 1)}

    for token in TOKEN.finditer(text):
        if token["with"]:
            current = word | 3 << (16 if token["field"] == "B" else 24)
            for at, first, last in fixed:
                named.setdefault(current, {}).setdefault(at, set()).update(registers(first, last))
        elif token["verb"]:
            verb = "read" if token["verb"].startswith("read") else "write"
            name(set())
        elif token["upvalue"]:
            name({("U", A(word))})
        elif token["previous"]:
            name({("R", A(companions(word & 127)[0]))})
        elif token["kind"] == "K":
            name({("K", value(token["first"], current))})
        elif token["from"] or token["top"]:
            start = token["first"]
            name(up_from(value(start, current)))
        elif token["only_to"]:
            name(registers(start, token["first"]))
        else:
            start = token["first"]
            fixed.append((verb, start, token["last"] or start))
            name(registers(start, token["last"] or start))
    return named


def other_fields(word, lua):
    """A word of the same opcode with other fields, for a row that speaks of A, B and C; 0 stays where
    the row says so."""
    code = word & 127
    with_bx = code in (CODE["FORLOOP"], CODE["FORPREP"], CODE["TFORPREP"], CODE["TFORLOOP"])
    if not re.search(r"\[[ABC]", lua) or with_bx:
        return word & ~0x7F80 | 10 << 7 if re.search(r"\[A", lua) else word
    b = 0 if re.search(r"B (is )?0", lua) else 20
    c = 0 if re.search(r"C (is )?0", lua) else 5
    return code | 10 << 7 | k(word) << 15 | b << 16 | c << 24


def opcodes(column):
    found = re.search(r"(\d+)(?: to (\d+))?$", column)
    first, last = int(found[1]), int(found[2] or found[1])
    return range(first, last + 1)


def hold(program, column, word, lua, rust):
    """What of the row disagrees with the lists, for the opcodes of its first column together."""
    wrong = []
    for base in {word, other_fields(word, lua)}:
        for at, verbs in claims(lua, rust, base).items():
            for verb, places in verbs.items():
                listed = set()
                for code in opcodes(column):
                    words, p = in_context(at & ~0x7F | code)
                    listed |= lists(program, words, p)[verb]
                if "only where" in lua and not places:  # on which step, and not what
                    words, p = in_context(at & ~0x7F | opcodes(column)[0])
                    if lists(program, words, p)["only"] != {("R", A(at))}:
                        wrong.append(f"word {at}: not listed with one step only")
                kinds = {kind for kind, _ in places}
                if kinds and ("U" not in kinds or kinds == {"U"}):  # the row is on all but upvalues, or on one alone
                    listed = {place for place in listed if (place[0] == "U") == (kinds == {"U"})}
                if places != listed and not ("only where" in lua and not places):
                    more = sorted(places - listed)[:4], sorted(listed - places)[:4]
                    wrong.append(f"word {at}, {verb}: the row has {more[0]} and not {more[1]}, as the lists")
    return wrong


def main():
    program, path = sys.argv[1:3]
    text = open(path, encoding="utf-8").read()
    table = text.split("### Reads and writes")[1].split("\n### ")[0]
    lines = [line for line in table.split("\n") if line.startswith("|") and not line.startswith("|--")][1:]
    rows = [[cell.strip() for cell in line.strip("|").split("|")] for line in lines]
    held = apart = bad = 0
    for column, words, rust, lua in rows:
        if any(re.search(name, column) and re.search(what, lua) for name, what, _ in LEFT_OUT):
            apart += 1
            continue
        word = int(re.match(r"\d+", words)[0])
        if not claims(lua, rust, word):
            wrong = ["names no place"]
        else:
            wrong = hold(program, column, word, lua, rust)
        bad += bool(wrong)
        held += not wrong
        for what in wrong:
            print(f"{column} | {words} | {lua}\n  {what}")
    print(
        f"rows on reads and writes: {held} agree with the lists, {bad} do not;"
        f" {apart} are on what C-14 leaves out or settles by a formula"
    )
    sys.exit(bool(bad))


if __name__ == "__main__":
    main()
