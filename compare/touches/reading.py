"""What a word touches: document 02, C-14, read a second time in plain Python, from its words,
lopcodes.h and lvm.c of Lua 5.4.8.

Nothing here is taken from the Rattle crates. A word's case gives the places read and, for each way
on, where it leads and the places written on it; what is written on every way is listed plainly, else
with the way's word (places.py).
"""
from places import NUMBERS, K, Places, R, U, between

NAMES = """
MOVE LOADI LOADF LOADK LOADKX LOADFALSE LFALSESKIP LOADTRUE LOADNIL GETUPVAL SETUPVAL GETTABUP
GETTABLE GETI GETFIELD SETTABUP SETTABLE SETI SETFIELD NEWTABLE SELF ADDI ADDK SUBK MULK MODK POWK
DIVK IDIVK BANDK BORK BXORK SHRI SHLI ADD SUB MUL MOD POW DIV IDIV BAND BOR BXOR SHL SHR MMBIN
MMBINI MMBINK UNM BNOT NOT LEN CONCAT CLOSE TBC JMP EQ LT LE EQK EQI LTI LEI GTI GEI TEST TESTSET
CALL TAILCALL RETURN RETURN0 RETURN1 FORLOOP FORPREP TFORPREP TFORCALL TFORLOOP SETLIST CLOSURE
VARARG VARARGPREP EXTRAARG
""".split()
assert len(NAMES) == 83
CODE = {name: number for number, name in enumerate(NAMES)}


def opcode(word):
    return word & 0x7F


def A(word):
    return word >> 7 & 0xFF


def k(word):
    return word >> 15 & 1


def B(word):
    return word >> 16 & 0xFF


def C(word):
    return word >> 24


def Bx(word):
    return word >> 15


def Ax(word):
    return word >> 7


def name_at(words, p):
    return NAMES[opcode(words[p])] if 0 <= p < len(words) and opcode(words[p]) < 83 else None


def is_arithmetic(name):
    return name is not None and CODE["ADDI"] <= CODE[name] <= CODE["SHR"]


def is_metamethod(name):
    return name in ("MMBIN", "MMBINI", "MMBINK")


def ways(words, p):
    """Document 01's table of steps as ways on, two of which may lead to one word; None for a bad word."""
    if p >= len(words):
        return None
    word, name = words[p], name_at(words, p)
    if name is None or name == "EXTRAARG":
        return None
    good, to = True, [p + 1]
    if name in ("TAILCALL", "RETURN", "RETURN0", "RETURN1"):
        to = []
    elif is_arithmetic(name):
        good, to = is_metamethod(name_at(words, p + 1)), [p + 1, p + 2]
    elif is_metamethod(name):
        good = is_arithmetic(name_at(words, p - 1))
    elif CODE["EQ"] <= CODE[name] <= CODE["TESTSET"]:
        good, to = name_at(words, p + 1) == "JMP", [p + 1, p + 2]
    elif name == "LFALSESKIP":
        to = [p + 2]
    elif name in ("LOADKX", "NEWTABLE") or name == "SETLIST" and k(word):
        good, to = name_at(words, p + 1) == "EXTRAARG", [p + 2]
    elif name == "JMP":
        to = [p + 1 + Ax(word) - 16777215]
    elif name in ("FORLOOP", "TFORLOOP"):
        to = [p + 1 - Bx(word), p + 1]
    elif name == "FORPREP":
        to = [p + 1, p + 2 + Bx(word)]
    elif name == "TFORPREP":
        good, to = name_at(words, p + 1 + Bx(word)) == "TFORCALL", [p + 1 + Bx(word)]
    elif name == "TFORCALL":
        good = name_at(words, p + 1) == "TFORLOOP"
    return to if good and all(0 <= q < len(words) for q in to) else None


def reads(words, p):
    word, name = words[p], name_at(words, p)
    a, b, c = A(word), B(word), C(word)
    value = K(c) if k(word) else R(c)  # RK(C)
    if name in ("MOVE", "GETI", "ADDI", "SHRI", "SHLI", "UNM", "BNOT", "NOT", "LEN", "TESTSET"):
        return R(b)
    if name == "LOADK":
        return K(Bx(word))
    if name == "LOADKX":
        return K(Ax(words[p + 1]))
    if name == "GETUPVAL":
        return U(b)
    if name in ("SETUPVAL", "MMBINI", "TBC", "EQI", "LTI", "LEI", "GTI", "GEI", "TEST", "RETURN1"):
        return R(a)
    if name == "GETTABUP":
        return U(b) | K(c)
    if name == "GETTABLE":
        return R(b, c)
    if name == "GETFIELD":
        return R(b) | K(c)
    if name == "SETTABUP":
        return U(a) | K(b) | value
    if name == "SETTABLE":
        return R(a, b) | value
    if name == "SETI":
        return R(a) | value
    if name == "SETFIELD":
        return R(a) | K(b) | value
    if name == "SELF":
        return R(b) | value
    if is_arithmetic(name):
        return R(b) | (K(c) if name.endswith("K") else R(c))
    if name in ("MMBIN", "EQ", "LT", "LE"):
        return R(a, b)
    if name in ("MMBINK", "EQK"):
        return R(a) | K(b)
    if name == "CONCAT":
        return between(a, a + b - 1)
    if name in ("CALL", "TAILCALL"):
        return R(a) | (between(a + 1, a + b - 1) if b else {("T", a + 1)})
    if name == "RETURN":
        return between(a, a + b - 2) if b else {("T", a)}
    if name in ("FORLOOP", "FORPREP", "TFORCALL"):
        return R(a, a + 1, a + 2)
    if name == "TFORPREP":
        return R(a + 3)
    if name == "TFORLOOP":
        return R(a + 4)
    if name == "SETLIST":
        return R(a) | (between(a + 1, a + b) if b else {("T", a + 1)})
    return set()


TO_A = """
MOVE LOADI LOADF LOADK LOADKX LOADFALSE LFALSESKIP LOADTRUE GETUPVAL GETTABUP GETTABLE GETI GETFIELD
NEWTABLE UNM BNOT NOT LEN CONCAT CLOSURE
""".split()


def written(words, p, leading):
    """For each way on, the places written in some execution that takes it."""
    word, name = words[p], name_at(words, p)
    a, b, c = A(word), B(word), C(word)
    none = [set() for _ in leading]
    if is_arithmetic(name):  # p+1 first: the metamethod word does it there
        return [set(), R(a)]
    if name == "TESTSET":
        return [R(a), set()]
    if name == "FORLOOP":  # back first
        return [R(a, a + 1, a + 3), set()]
    if name == "TFORLOOP":
        return [R(a + 2), set()]
    if name == "FORPREP":  # into the loop first
        return [R(a, a + 1, a + 2, a + 3), R(a + 3)]
    if is_metamethod(name):
        return [R(A(words[p - 1]))]
    if name == "SETUPVAL":
        return [U(b)]
    if name == "SELF":
        return [R(a, a + 1)]
    if name == "LOADNIL":
        return [between(a, a + b)]
    if name in ("CALL", "VARARG"):
        return [between(a, a + c - 2) if c else {("T", a)}]
    if name == "TFORCALL":
        return [between(a + 4, a + 3 + c)]
    if name in TO_A:
        return [R(a)]
    return none


def Touched(words, p):
    return Places(words, p, ways, reads, written)


assert len(Touched([], 0).numbers()) == NUMBERS
