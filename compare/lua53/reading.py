"""What a word of Lua 5.3 touches: document 02, C-14 and C-24, read a second time in plain Python, from
their words, lopcodes.h and lvm.c of Lua 5.3.6. Nothing here is taken from the Rattle crates. The form
is that of ../touches/reading.py, whose place this module takes in the comparison.
"""
from places import NUMBERS, K, Places, R, U, between

NAMES = """
MOVE LOADK LOADKX LOADBOOL LOADNIL GETUPVAL GETTABUP GETTABLE SETTABUP SETUPVAL SETTABLE NEWTABLE SELF
ADD SUB MUL MOD POW DIV IDIV BAND BOR BXOR SHL SHR UNM BNOT NOT LEN CONCAT JMP EQ LT LE TEST TESTSET
CALL TAILCALL RETURN FORLOOP FORPREP TFORCALL TFORLOOP SETLIST CLOSURE VARARG EXTRAARG
""".split()
assert len(NAMES) == 47
CODE = {name: number for number, name in enumerate(NAMES)}


def opcode(word):
    return word & 0x3F


def A(word):
    return word >> 6 & 0xFF


def B(word):
    return word >> 23


def C(word):
    return word >> 14 & 0x1FF


def Bx(word):
    return word >> 14


def sBx(word):
    return Bx(word) - (0x3FFFF >> 1)


def Ax(word):
    return word >> 6


def name_at(words, p):
    return NAMES[opcode(words[p])] if 0 <= p < len(words) and opcode(words[p]) < len(NAMES) else None


def ways(words, p):
    """Where lvm.c goes on, two ways of which may lead to one word; None for a bad word."""
    if p >= len(words):
        return None
    word, name, following = words[p], name_at(words, p), name_at(words, p + 1)
    good, to = True, [p + 1]
    if name is None or name == "EXTRAARG":
        return None
    if name in ("EQ", "LT", "LE", "TEST", "TESTSET"):
        good, to = following == "JMP", [p + 1, p + 2]
        if name in ("EQ", "LT", "LE") and A(word) > 1:  # never what a comparison gives
            to = [p + 2]
    elif name == "LOADKX" or name == "SETLIST" and C(word) == 0:
        good, to = following == "EXTRAARG", [p + 2]
    elif name == "TFORCALL":
        good = following == "TFORLOOP"
    elif name == "LOADBOOL" and C(word):
        to = [p + 2]
    elif name in ("JMP", "FORPREP"):
        to = [p + 1 + sBx(word)]
    elif name in ("FORLOOP", "TFORLOOP"):
        to = [p + 1 + sBx(word), p + 1]
    elif name == "RETURN":
        to = []
    return to if good and all(0 <= q < len(words) for q in to) else None


def RK(x):
    """RK(x) == if ISK(x) then Kst(INDEXK(x)) else R(x)"""
    return K(x & ~256) if x & 256 else R(x)


def is_arithmetic(name):
    return name is not None and CODE["ADD"] <= CODE[name] <= CODE["SHR"]


def reads(words, p):
    word, name = words[p], name_at(words, p)
    a, b, c = A(word), B(word), C(word)
    if name in ("MOVE", "UNM", "BNOT", "NOT", "LEN", "TESTSET"):
        return R(b)
    if name == "LOADK":
        return K(Bx(word))
    if name == "LOADKX":
        return K(Ax(words[p + 1]))
    if name == "GETUPVAL":
        return U(b)
    if name == "GETTABUP":
        return U(b) | RK(c)
    if name in ("GETTABLE", "SELF"):
        return R(b) | RK(c)
    if name == "SETTABUP":
        return U(a) | RK(b) | RK(c)
    if name in ("SETUPVAL", "TEST"):
        return R(a)
    if name == "SETTABLE":
        return R(a) | RK(b) | RK(c)
    if is_arithmetic(name) or name in ("EQ", "LT", "LE"):
        return RK(b) | RK(c)
    if name == "CONCAT":
        return between(b, c)
    if name in ("CALL", "TAILCALL"):
        return R(a) | (between(a + 1, a + b - 1) if b else {("T", a + 1)})
    if name == "RETURN":
        return between(a, a + b - 2) if b else {("T", a)}
    if name in ("FORLOOP", "FORPREP", "TFORCALL"):
        return R(a, a + 1, a + 2)
    if name == "TFORLOOP":
        return R(a + 1)
    if name == "SETLIST":
        return R(a) | (between(a + 1, a + b) if b else {("T", a + 1)})
    return set()


TO_A = """
MOVE LOADK LOADKX LOADBOOL GETUPVAL GETTABUP GETTABLE NEWTABLE UNM BNOT NOT LEN CONCAT CLOSURE
""".split()


def written(words, p, leading):
    """For each way on, the places written in some execution that takes it."""
    word, name = words[p], name_at(words, p)
    a, b, c = A(word), B(word), C(word)
    if name == "TESTSET":  # to the JMP first
        return [R(a), set()]
    if name == "FORLOOP":  # looping first: lvm.c stores nothing where the loop ends
        return [R(a, a + 3), set()]
    if name == "TFORLOOP":
        return [R(a), set()]
    if name == "FORPREP":  # the limit always, the step where the loop is one of floats
        return [R(a, a + 1, a + 2)]
    if name == "SETUPVAL":
        return [U(b)]
    if name == "SELF":
        return [R(a, a + 1)]
    if name == "LOADNIL":
        return [between(a, a + b)]
    if name == "CALL":
        return [between(a, a + c - 2) if c else {("T", a)}]
    if name == "VARARG":
        return [between(a, a + b - 2) if b else {("T", a)}]
    if name == "TFORCALL":
        return [between(a + 3, a + 2 + c)]
    if is_arithmetic(name) or name in TO_A:
        return [R(a)]
    return [set() for _ in leading]


def Touched(words, p):
    return Places(words, p, ways, reads, written)


assert len(Touched([], 0).numbers()) == NUMBERS
