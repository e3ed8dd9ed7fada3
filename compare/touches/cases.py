"""The cases of crates/touches_cases by the second reading: prints what the program is to write,
which is how its stored output was made.
"""
from places import of_kind, ranges
from reading import CODE, Touched

OFFSET_SJ = 16777215


def abc(name, a=0, k=0, b=0, c=0):
    return c << 24 | b << 16 | k << 15 | a << 7 | CODE[name]


def a_bx(name, a, bx):
    return bx << 15 | a << 7 | CODE[name]


def ax(name, value):
    return value << 7 | CODE[name]


def text(t):
    def in_ranges(label, places):
        found = ranges(places)
        return label + "".join(f" {first} to {last}" for first, last in found) if found else ""

    def in_indices(label, places, kind):
        found = of_kind(places, kind)
        return label + "".join(f" {index}" for index in found) if found else ""

    def in_top(label, places):
        return "".join(f"{label} {first} up to the top" for first in of_kind(places, "T"))

    return (
        ":"
        + in_ranges(" reads", t.reads)
        + in_top(" reads from", t.reads)
        + in_indices(" constants", t.reads, "K")
        + in_indices(" upvalues", t.reads, "U")
        + in_ranges(" writes", t.writes)
        + in_top(" writes from", t.writes)
        + in_indices(" upvalue writes", t.writes, "U")
        + in_ranges(" writes", t.edge_writes)
        + (f" on the way to {t.edge}" if t.edge_writes else "")
    )


def show(label, words, p=1):
    print(label + text(Touched(words, p)))


def all_opcodes():
    jmp, mv = ax("JMP", OFFSET_SJ), abc("MOVE")
    for name, code in CODE.items():
        for k in (0, 1):
            word, after, last = abc(name, 10, k, 20, 30), mv, mv
            if name in ("FORLOOP", "FORPREP", "TFORPREP", "TFORLOOP"):
                word = a_bx(name, 10, k)
            if name == "JMP":
                word = jmp
            if CODE["ADDI"] <= code <= CODE["SHR"]:
                after = abc("MMBIN", 11, 0, 12, 6)
            if CODE["EQ"] <= code <= CODE["TESTSET"]:
                after = jmp
            if name in ("LOADKX", "NEWTABLE", "SETLIST"):
                after = ax("EXTRAARG", 70000)
            if name == "TFORPREP":
                after = last = abc("TFORCALL")
            if name == "TFORCALL":
                after = abc("TFORLOOP")
            show(f"opcode {code} k {k}", [abc("ADD", 9, 0, 1, 2), word, after, last])


def corners():
    jmp, mv = ax("JMP", OFFSET_SJ), abc("MOVE")

    def among(label, word, after=mv):
        show(label, [mv, word, after, mv])

    among("GETTABLE B 5, C 4", abc("GETTABLE", 0, 0, 5, 4))
    among("GETTABLE B 4, C 6", abc("GETTABLE", 0, 0, 4, 6))
    among("SETTABLE A 2, B 0, C 1", abc("SETTABLE", 2, 0, 0, 1))
    among("SETTABLE A 9, B 5, C 1", abc("SETTABLE", 9, 0, 5, 1))
    among("SETTABLE A 5, B 5, C 5", abc("SETTABLE", 5, 0, 5, 5))
    among("SELF A 255", abc("SELF", 255, 0, 254, 0))
    among("LOADNIL A 255, B 255", abc("LOADNIL", 255, 0, 255, 0))
    among("CALL A 255, B 255, C 255", abc("CALL", 255, 0, 255, 255))
    among("TFORCALL A 255, C 255", abc("TFORCALL", 255, 0, 0, 255), abc("TFORLOOP"))
    among("TFORCALL C 0", abc("TFORCALL"), abc("TFORLOOP"))
    among("CONCAT B 0", abc("CONCAT", 7))
    among("CONCAT B 1", abc("CONCAT", 7, 0, 1))
    among("CALL B 1, C 1", abc("CALL", 7, 0, 1, 1))
    among("RETURN B 1", abc("RETURN", 7, 0, 1))
    among("RETURN B 2", abc("RETURN", 7, 0, 2))
    among("VARARG C 1", abc("VARARG", 7, 0, 0, 1))
    among("VARARG C 2", abc("VARARG", 7, 0, 0, 2))
    among("CALL A 255, B 0, C 0", abc("CALL", 255))
    among("CALL B 0, C 1", abc("CALL", 7, 0, 0, 1))
    among("CALL B 1, C 0", abc("CALL", 7, 0, 1, 0))
    among("TAILCALL B 0", abc("TAILCALL", 7))
    among("RETURN B 0", abc("RETURN", 7))
    among("SETLIST B 0", abc("SETLIST", 7))
    among("VARARG C 0", abc("VARARG", 7))
    among("FORLOOP Bx 0", a_bx("FORLOOP", 7, 0))
    among("FORLOOP Bx 2", a_bx("FORLOOP", 7, 2))
    among("TFORLOOP Bx 1", a_bx("TFORLOOP", 7, 1))
    among("FORPREP Bx 0", a_bx("FORPREP", 252, 0))
    among("TESTSET A 3, B 4", abc("TESTSET", 3, 0, 4), jmp)
    among("ADD A 3, B 3, C 4", abc("ADD", 3, 0, 3, 4), abc("MMBIN"))
    show("MMBIN A 5, B 6 after ADD A 9", [abc("ADD", 9, 0, 5, 6), abc("MMBIN", 5, 0, 6, 6), mv])
    show("MMBINK A 5, B 6, k 1 after SUBK A 5", [abc("SUBK", 5, 0, 5, 6), abc("MMBINK", 5, 1, 6, 7), mv])
    among("SETTABUP k 1, B 6, C 6", abc("SETTABUP", 3, 1, 6, 6))
    among("SETTABUP k 1, B 7, C 6", abc("SETTABUP", 3, 1, 7, 6))
    among("SETFIELD k 1, B 0, C 255", abc("SETFIELD", 3, 1, 0, 255))
    among("LOADK Bx 131071", a_bx("LOADK", 255, 131071))
    among("LOADKX Ax 33554431", abc("LOADKX", 3), ax("EXTRAARG", 33554431))
    among("SETUPVAL A 3, B 255", abc("SETUPVAL", 3, 0, 255))
    among("ADD alone", abc("ADD", 3, 0, 3, 4))
    among("MMBIN alone", abc("MMBIN", 3, 0, 3, 4))
    among("TESTSET alone", abc("TESTSET", 3, 0, 4))
    among("LOADKX alone", abc("LOADKX", 3))
    among("FORLOOP Bx 3", a_bx("FORLOOP", 7, 3))
    among("FORPREP Bx 1", a_bx("FORPREP", 7, 1))
    among("EXTRAARG", ax("EXTRAARG", 1))
    among("unknown 83", 83)
    among("unknown 127", 127)
    two = [abc("MOVE", 1, 0, 2), abc("MOVE", 1, 0, 2)]
    show("MOVE, a word after it", two, 0)
    show("MOVE as the last word", two, 1)
    show("word 2 of 2", two, 2)
    show("word 4,294,967,295 of 2", two, 4294967295)
    show("word 18,446,744,073,709,551,615 of 2", two, 18446744073709551615)
    show("no words", [], 0)


def in_a_row():
    words = [
        abc("MOVE", 1, 0, 2), abc("ADD", 3, 0, 4, 5), abc("MMBIN", 4, 0, 5, 6), abc("CALL", 7), abc("LOADNIL", 255, 0, 1),
        abc("GETTABLE", 9, 0, 5, 4), abc("SETTABUP", 2, 1, 6, 6), abc("LOADKX", 3), ax("EXTRAARG", 33554431),
        abc("SETUPVAL", 8, 0, 2), a_bx("FORPREP", 10, 0), a_bx("FORLOOP", 10, 0), abc("ADD", 1, 0, 2, 3), abc("RETURN", 7),
    ]
    for p in range(len(words)):
        first = max(0, p - 1)
        show(f"in a row, word {p}", words[first : first + 8], p - first)


if __name__ == "__main__":
    all_opcodes()
    corners()
    in_a_row()
