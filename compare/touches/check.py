"""check.py LISTS REAL [SEED] [FUNCTIONS]: holds the proved lists (the program LISTS, from lists.c)
against the second reading, word by word.

Functions tried: every opcode at the boundaries of its fields, with its companions; every pair of
opcode values; the real functions of REAL (words/real.txt), whole and with bits flipped, words
exchanged or cut off; random functions. Ends with status 1 at the first difference, or if a reading
that is wrong on purpose (WRONG_WRITES, WRONG_READS) is not caught.
"""
import itertools, random, struct, subprocess, sys
from collections import Counter
import reading
from reading import A, CODE, NAMES, NUMBERS, R, Touched, name_at

JMP0 = 16777215 << 7 | CODE["JMP"]


def companions(code):
    """A word before and one after that make a word of this opcode good, as far as they decide it."""
    before, after = CODE["ADD"] | 77 << 7, CODE["MOVE"]
    if CODE["ADDI"] <= code <= CODE["SHR"]:
        after = CODE["MMBIN"]
    elif CODE["EQ"] <= code <= CODE["TESTSET"]:
        after = JMP0
    elif code in (CODE["LOADKX"], CODE["NEWTABLE"], CODE["SETLIST"]):
        after = CODE["EXTRAARG"] | 33554431 << 7
    elif code == CODE["TFORPREP"]:
        after = CODE["TFORCALL"]
    elif code == CODE["TFORCALL"]:
        after = CODE["TFORLOOP"]
    return before, after


def boundaries():
    edges = (0, 1, 2, 3, 4, 5, 128, 251, 252, 254, 255)
    for code in range(128):
        before, after = companions(code)
        with_bx = code in (CODE["FORLOOP"], CODE["FORPREP"], CODE["TFORPREP"], CODE["TFORLOOP"])
        for a in edges:
            if with_bx:
                fields = (bx << 15 for bx in (0, 1, 2, 3, 131071))
            elif code == CODE["JMP"]:
                fields = ((16777215 + j) << 7 for j in (-3, -2, -1, 0, 1, 2))
            else:
                fields = (c << 24 | b << 16 | k << 15 for b in edges for c in edges for k in (0, 1))
            for rest in fields:
                yield [before, code | a << 7 & 0x7F80 | rest, after, CODE["TFORCALL"]]


def pairs(rng):
    for first, second in itertools.product(range(128), repeat=2):
        yield [first | rng.getrandbits(25) << 7, second | rng.getrandbits(25) << 7, rng.getrandbits(32)]


def real(path):
    for line in open(path, encoding="utf-8"):
        if line.startswith("w "):
            yield [int(word) for word in line.split()[1:]]


def damaged(rng, functions, times):
    for _ in range(times):
        words = list(rng.choice(functions))
        at = rng.randrange(len(words))
        start = max(0, at - 40)
        words = words[start : at + 40]
        for _ in range(rng.randrange(1, 4)):
            i, how = rng.randrange(len(words)), rng.randrange(3)
            if how == 0:
                words[i] ^= 1 << rng.randrange(32)
            elif how == 1:
                j = rng.randrange(len(words))
                words[i], words[j] = words[j], words[i]
            else:
                words = words[: i + 1]
        yield words


def random_function(rng):
    words = []
    while len(words) < rng.randrange(2, 24):
        code = rng.randrange(83)
        before, after = companions(code)
        word = code | rng.getrandbits(25) << 7
        if code in (CODE["FORLOOP"], CODE["FORPREP"], CODE["TFORPREP"], CODE["TFORLOOP"]):
            word = code | rng.getrandbits(8) << 7 | rng.randrange(12) << 15
        elif code == CODE["JMP"]:
            word = code | (16777215 + rng.randrange(-6, 7)) << 7
        if CODE["MMBIN"] <= code <= CODE["MMBINK"]:
            words.append(CODE["ADD"] + rng.randrange(12) | rng.getrandbits(25) << 7)
        words.append(word)
        if after != CODE["MOVE"] or rng.randrange(8) == 0:
            words.append(after)
    return words


class Side:
    """The proved library behind a pipe."""

    def __init__(self, program):
        self.program = program

    def lists(self, functions):
        text = b"".join(struct.pack(f"<I{len(words)}I", len(words), *words) for words in functions)
        out = subprocess.run([self.program], input=text, capture_output=True, check=True).stdout
        numbers = struct.unpack(f"<{len(out) // 4}I", out)
        at = 0
        for words in functions:
            answers = []
            for _ in range(len(words) + 1):
                answers.append(numbers[at : at + NUMBERS])
                at += NUMBERS
            yield words, answers
        assert at == len(numbers)


def compare(side, label, functions, counts):
    batch, seen, bad, one_way, met = [], 0, 0, 0, Counter()

    def flush():
        nonlocal seen, bad, one_way
        for words, answers in side.lists(batch):
            for p, answer in enumerate(answers):
                t = Touched(words, p)
                if answer != tuple(t.numbers()):
                    print(f"differs: word {p} of {words}\n  proved  {answer}\n  reading {tuple(t.numbers())}")
                    sys.exit(1)
                if p < len(words):
                    seen += 1
                    bad += t.bad
                    one_way += bool(t.edge_writes)
                    if not t.bad:
                        met[reading.opcode(words[p])] += 1
        batch.clear()

    for words in functions:
        batch.append(words)
        if len(batch) == 2000:
            flush()
    flush()
    counts.update(met)
    print(f"{label}: {seen} words, {bad} of them bad, {one_way} with writes on one way only: no difference")
    return seen


def own_a(words, p, on):
    """A metamethod word writes its own A."""
    return [R(A(words[p]))] if reading.is_metamethod(name_at(words, p)) else on


def by_the_comment(words, p, on):
    """TFORLOOP writes R[A], as the comment in lopcodes.h says."""
    return [R(A(words[p])), set()] if name_at(words, p) == "TFORLOOP" else on


def late_control(words, p, on):
    """FORPREP sets R[A+3] only if the loop runs."""
    return [on[0], set()] if name_at(words, p) == "FORPREP" else on


def on_both_steps(words, p, on):
    """What is written on some step is listed plainly."""
    return [set.union(*on)] * len(on)


def saturating(words, p, on):
    """Registers stop at 255, as the Rust's do."""
    return [{(kind, min(index, 255)) for kind, index in places} for places in on]


def always_a_register(words, p, places):
    """RK(C) is R[C], whatever k is."""
    if name_at(words, p) in ("SETTABUP", "SETTABLE", "SETI", "SETFIELD", "SELF") and reading.k(words[p]):
        return places - reading.K(reading.C(words[p])) | R(reading.C(words[p]))
    return places


def no_top(words, p, places):
    """Nothing is read up to the top."""
    return {(kind, index) for kind, index in places if kind != "T"}


WRONG_WRITES = (own_a, by_the_comment, late_control, on_both_steps, saturating)
WRONG_READS = (always_a_register, no_top)


def caught(side, wrong, of_reads, functions):
    """A word that tells the reading from the lists, if its writes, or reads, are those that `wrong` makes of them."""
    right, right_reads = reading.written, reading.reads
    if of_reads:
        reading.reads = lambda words, p: wrong(words, p, right_reads(words, p))
    else:
        reading.written = lambda words, p, leading: wrong(words, p, right(words, p, leading))
    try:
        for words, answers in side.lists(functions):
            for p, answer in enumerate(answers):
                if answer != tuple(Touched(words, p).numbers()):
                    return words, p
    finally:
        reading.written, reading.reads = right, right_reads
    return None


def main(boundaries, pairs, random_function, wrong_writes, wrong_reads):
    """The comparison with these functions and wrong readings; lua53/lists.py has others."""
    program, path = sys.argv[1:3]
    seed = int(sys.argv[3]) if len(sys.argv) > 3 else 1
    many = int(sys.argv[4]) if len(sys.argv) > 4 else 20000
    rng, side, counts = random.Random(seed), Side(program), Counter()
    functions = list(real(path))
    total = compare(side, "boundaries of every field", boundaries(), counts)
    total += compare(side, "pairs of opcode values", pairs(rng), counts)
    total += compare(side, "real functions", functions, counts)
    total += compare(side, "real functions, damaged", damaged(rng, functions, many), counts)
    total += compare(side, "random functions", (random_function(rng) for _ in range(many)), counts)
    never = [name for name in NAMES if not counts[CODE[name]]]
    print(f"all: {total} words; opcodes met in good words: {len(NAMES) - len(never)} of {len(NAMES)}; never: {' '.join(never)}")
    # random words seldom have B 0, so one function that reads up to the top stands among them
    few = [random_function(rng) for _ in range(1000)] + [[CODE["CALL"], CODE["RETURN"]]]
    for wrong in wrong_writes + wrong_reads:
        found = caught(side, wrong, wrong in wrong_reads, few)
        print(f"wrong on purpose, {wrong.__name__}: {'caught at word %d of %s' % (found[1], found[0]) if found else 'NOT CAUGHT'}")
        if not found:
            sys.exit(1)


if __name__ == "__main__":
    main(boundaries, pairs, random_function, WRONG_WRITES, WRONG_READS)
