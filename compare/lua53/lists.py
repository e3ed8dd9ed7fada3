"""lists.py LISTS REAL [SEED] [FUNCTIONS]: ../touches/check.py for Lua 5.3, with the reading of this
folder, functions of its own and readings that are wrong on purpose.
"""
import itertools, sys

sys.path.append(__file__.rsplit("/", 1)[0] + "/../touches")
import check
import reading
from places import K, R, between
from reading import A, B, C, CODE, RK, name_at

JMP0 = 131071 << 14 | CODE["JMP"]
LOOPS = (CODE["FORLOOP"], CODE["FORPREP"], CODE["TFORLOOP"])


def after(code):
    """A word that makes one of this opcode before it good, as far as it decides that."""
    if CODE["EQ"] <= code <= CODE["TESTSET"]:
        return JMP0
    if code in (CODE["LOADKX"], CODE["SETLIST"]):
        return CODE["EXTRAARG"] | 67108863 << 6
    return CODE["TFORLOOP"] | 131071 << 14 if code == CODE["TFORCALL"] else CODE["MOVE"]


def boundaries():
    edges = (0, 1, 2, 3, 4, 5, 127, 252, 254, 255, 256, 257, 300, 508, 511)
    for code in range(64):
        jumps = code in LOOPS or code == CODE["JMP"]
        for a in (0, 1, 2, 3, 128, 252, 253, 254, 255):
            fields = (131071 + j for j in (-3, -2, -1, 0, 1, 2)) if jumps else (b << 9 | c for b in edges for c in edges)
            for rest in fields:
                yield [CODE["MOVE"], code | a << 6 | rest << 14, after(code), CODE["MOVE"]]


def pairs(rng):
    for first, second in itertools.product(range(64), repeat=2):
        for a, c in itertools.product((0, 1, 2, 255), (0, 1)):
            yield [first | a << 6 | c << 14 | rng.getrandbits(9) << 23, second | rng.getrandbits(26) << 6, rng.getrandbits(32)]


def random_function(rng):
    words = []
    while len(words) < rng.randrange(2, 24):
        code = rng.randrange(47)
        word = code | rng.getrandbits(26) << 6
        if code in LOOPS or code == CODE["JMP"]:
            word = code | rng.getrandbits(8) << 6 | (131071 + rng.randrange(-6, 7)) << 14
        words.append(word)
        if after(code) != CODE["MOVE"] or rng.randrange(8) == 0:
            words.append(after(code))
    return words


def forloop_by_the_comment(words, p, on):
    """FORLOOP adds to R(A) whether it loops or not, as the comment in lopcodes.h says."""
    a = A(words[p])
    return [R(a, a + 3), R(a)] if name_at(words, p) == "FORLOOP" else on


def forprep_by_the_comment(words, p, on):
    """FORPREP writes R(A) alone."""
    return [R(A(words[p]))] if name_at(words, p) == "FORPREP" else on


def tforloop_as_in_54(words, p, on):
    """TFORLOOP writes R(A+2)."""
    return [R(A(words[p]) + 2), set()] if name_at(words, p) == "TFORLOOP" else on


def tforcall_as_in_54(words, p, on):
    """TFORCALL writes R(A+4) on."""
    a = A(words[p])
    return [between(a + 4, a + 3 + C(words[p]))] if name_at(words, p) == "TFORCALL" else on


def vararg_by_c(words, p, on):
    """VARARG counts by C, as in 5.4."""
    a, c = A(words[p]), C(words[p])
    return [between(a, a + c - 2) if c else {("T", a)}] if name_at(words, p) == "VARARG" else on


def tailcall_writes(words, p, on):
    """TAILCALL leaves what a C function returned."""
    return [{("T", A(words[p]))}] if name_at(words, p) == "TAILCALL" else on


def on_both_steps(words, p, on):
    """What is written on some step is listed plainly."""
    return [set.union(*on)] * len(on)


def saturating(words, p, on):
    """Registers stop at 255."""
    return [{(kind, min(index, 255)) for kind, index in places} for places in on]


def of_eight_bits(words, p, places):
    """B has eight bits."""
    return {("R", B(words[p]) & 255)} if name_at(words, p) == "MOVE" else places


def constant_with_its_bit(words, p, places):
    """A constant of RK keeps the bit that makes it one."""
    if name_at(words, p) in ("EQ", "ADD", "SETTABLE"):
        constants = [x for x in (B(words[p]), C(words[p])) if x & 256]
        return set.union({place for place in places if place[0] != "K"}, *map(K, constants))
    return places


def always_a_register(words, p, places):
    """RK(C) is R(C)."""
    c = C(words[p])
    return places - RK(c) | R(c) if name_at(words, p) in ("GETTABUP", "GETTABLE", "SELF") else places


def concat_as_in_54(words, p, places):
    """CONCAT reads R(A) to R(A+B-1)."""
    a = A(words[p])
    return between(a, a + B(words[p]) - 1) if name_at(words, p) == "CONCAT" else places


def tforloop_reads_as_in_54(words, p, places):
    """TFORLOOP reads R(A+4)."""
    return R(A(words[p]) + 4) if name_at(words, p) == "TFORLOOP" else places


def no_top(words, p, places):
    """Nothing is read up to the top."""
    return {(kind, index) for kind, index in places if kind != "T"}


WRONG_WRITES = (
    forloop_by_the_comment, forprep_by_the_comment, tforloop_as_in_54, tforcall_as_in_54, vararg_by_c, tailcall_writes,
    on_both_steps, saturating,
)
WRONG_READS = (
    of_eight_bits, constant_with_its_bit, always_a_register, concat_as_in_54, tforloop_reads_as_in_54, no_top,
)

if __name__ == "__main__":
    check.main(boundaries, pairs, random_function, WRONG_WRITES, WRONG_READS)
