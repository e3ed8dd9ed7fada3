"""The cases of Lua 5.3 in crates/touches_cases by the second reading: prints the end of what the program is to write, after
what ../touches/cases.py prints.
"""
from places import of_kind, ranges
from reading import CODE, Touched

OFFSET_SBX = 131071


def abc(name, a=0, b=0, c=0):
    return b << 23 | c << 14 | a << 6 | CODE[name]


def a_sbx(name, a, sbx):
    return a_bx(name, a, OFFSET_SBX + sbx)


def a_bx(name, a, bx):
    return bx << 14 | a << 6 | CODE[name]


def ax(name, value):
    return value << 6 | CODE[name]


def text(t):
    def in_ranges(label, places):
        found = ranges(places)
        return label + "".join(f" {first} to {last}" for first, last in found) if found else ""

    def in_indices(label, places, kind):
        found = of_kind(places, kind)
        return label + "".join(f" {index}" for index in found) if found else ""

    def in_top(label, places):
        return "".join(f"{label} {first} up to the top" for first in of_kind(places, "T"))

    return (
        ":"
        + in_ranges(" reads", t.reads)
        + in_top(" reads from", t.reads)
        + in_indices(" constants", t.reads, "K")
        + in_indices(" upvalues", t.reads, "U")
        + in_ranges(" writes", t.writes)
        + in_top(" writes from", t.writes)
        + in_indices(" upvalue writes", t.writes, "U")
        + in_ranges(" writes", t.edge_writes)
        + (f" on the way to {t.edge}" if t.edge_writes else "")
    )


def show(label, words, p=1):
    print("5.3: " + label + text(Touched(words, p)))


def all_opcodes():
    jmp, mv = a_sbx("JMP", 0, 0), abc("MOVE")
    for name, code in CODE.items():
        for bit in (0, 1):
            word, after = abc(name, 10, 20 + 256 * bit, 30 + 256 * bit), mv
            if name in ("JMP", "FORLOOP", "FORPREP", "TFORLOOP"):
                word = a_sbx(name, 10, bit)
            if name in ("EQ", "LT", "LE", "TEST", "TESTSET"):
                after = jmp
            if name == "LOADKX":
                after = ax("EXTRAARG", 70000)
            if name == "TFORCALL":
                after = a_sbx("TFORLOOP", 0, 0)
            show(f"opcode {code} bit {bit}", [mv, word, after, mv])


def corners():
    jmp, mv, loop = a_sbx("JMP", 0, 0), abc("MOVE"), a_sbx("TFORLOOP", 0, 0)

    def among(label, word, after=mv):
        show(label, [mv, word, after, mv])

    among("MOVE A 255, B 511", abc("MOVE", 255, 511))
    among("GETTABLE B 256, C 255", abc("GETTABLE", 0, 256, 255))
    among("SELF A 255, B 511", abc("SELF", 255, 511))
    among("SETTABLE A 2, B 0, C 1", abc("SETTABLE", 2, 0, 1))
    among("LOADNIL B 0", abc("LOADNIL", 7, 0, 9))
    among("LOADNIL A 255, B 511", abc("LOADNIL", 255, 511))
    among("CALL A 255, B 511, C 511", abc("CALL", 255, 511, 511))
    among("CALL B 1, C 1", abc("CALL", 7, 1, 1))
    among("TAILCALL B 1", abc("TAILCALL", 7, 1))
    among("RETURN B 1", abc("RETURN", 7, 1))
    among("RETURN B 2", abc("RETURN", 7, 2))
    among("VARARG B 1, C 9", abc("VARARG", 7, 1, 9))
    among("VARARG B 3, C 0", abc("VARARG", 7, 3))
    among("CONCAT B 3, C 3", abc("CONCAT", 7, 3, 3))
    among("CONCAT B 4, C 3", abc("CONCAT", 7, 4, 3))
    among("CONCAT B 0, C 511", abc("CONCAT", 7, 0, 511))
    among("TFORCALL A 255, C 511", abc("TFORCALL", 255, 0, 511), loop)
    among("TFORCALL C 0", abc("TFORCALL", 7), loop)
    among("CALL A 255, B 0, C 0", abc("CALL", 255))
    among("CALL B 0, C 1", abc("CALL", 7, 0, 1))
    among("CALL B 1, C 0", abc("CALL", 7, 1))
    among("TAILCALL B 0", abc("TAILCALL", 7))
    among("RETURN B 0", abc("RETURN", 7, 0, 9))
    among("SETLIST B 0", abc("SETLIST", 7, 0, 1))
    among("SETLIST B 2, C 0", abc("SETLIST", 7, 2), ax("EXTRAARG", 1))
    among("VARARG B 0, C 9", abc("VARARG", 7, 0, 9))
    among("FORLOOP sBx -2", a_sbx("FORLOOP", 7, -2))
    among("FORLOOP sBx -1", a_sbx("FORLOOP", 7, -1))
    among("FORLOOP sBx 0", a_sbx("FORLOOP", 7, 0))
    among("FORLOOP sBx 1", a_sbx("FORLOOP", 255, 1))
    among("TFORLOOP sBx -1", a_sbx("TFORLOOP", 7, -1))
    among("TFORLOOP sBx 0", a_sbx("TFORLOOP", 7, 0))
    among("TFORLOOP sBx 1", a_sbx("TFORLOOP", 255, 1))
    among("FORPREP sBx -2", a_sbx("FORPREP", 7, -2))
    among("FORPREP sBx 1", a_sbx("FORPREP", 255, 1))
    among("JMP A 0", jmp)
    among("JMP A 9", a_sbx("JMP", 9, 0))
    among("TESTSET A 3, B 400", abc("TESTSET", 3, 400, 1), jmp)
    among("EQ A 2", abc("EQ", 2, 4, 256), jmp)
    among("ADD B 255, C 256", abc("ADD", 3, 255, 256))
    among("ADD B 511, C 256", abc("ADD", 3, 511, 256))
    among("ADD B 300, C 300", abc("ADD", 3, 300, 300))
    among("GETTABUP B 300, C 300", abc("GETTABUP", 3, 300, 300))
    among("SETTABUP B 263, C 262", abc("SETTABUP", 3, 263, 262))
    among("SETUPVAL A 3, B 511", abc("SETUPVAL", 3, 511))
    among("LOADK Bx 262143", a_bx("LOADK", 255, 262143))
    among("LOADKX Ax 67108863", abc("LOADKX", 3), ax("EXTRAARG", 67108863))
    among("TESTSET alone", abc("TESTSET", 3, 4))
    among("LE alone", abc("LE", 1, 4))
    among("LOADKX alone", abc("LOADKX", 3))
    among("SETLIST C 0 alone", abc("SETLIST", 7, 2))
    among("TFORCALL alone", abc("TFORCALL", 7, 0, 2))
    among("FORLOOP sBx -3", a_sbx("FORLOOP", 7, -3))
    among("FORPREP sBx 2", a_sbx("FORPREP", 7, 2))
    among("EXTRAARG", ax("EXTRAARG", 1))
    among("unknown 47", 47)
    among("unknown 63", 63)
    two = [abc("MOVE", 1, 2), abc("TAILCALL", 1, 2)]
    show("MOVE, a word after it", two, 0)
    show("TAILCALL as the last word", two, 1)
    show("word 2 of 2", two, 2)


def in_a_row():
    words = [
        abc("MOVE", 1, 300), abc("ADD", 3, 263, 5), abc("GETTABUP", 9, 2, 256), abc("SETTABUP", 2, 262, 262), abc("CALL", 7),
        abc("LOADNIL", 255, 1), abc("LOADKX", 3), ax("EXTRAARG", 67108863), a_sbx("FORLOOP", 10, 2), abc("SETLIST", 4, 0, 1),
        abc("EQ", 1, 6, 511), a_sbx("JMP", 3, 0), abc("EQ", 1, 6, 511), abc("RETURN", 7, 3),
    ]
    for p in range(len(words)):
        first = max(0, p - 1)
        show(f"in a row, word {p}", words[first : first + 8], p - first)


if __name__ == "__main__":
    all_opcodes()
    corners()
    in_a_row()
