"""Functions to try, as cases: words, number of parameters, length of the marks that are lent, and their first byte."""
from bisect import bisect_left, bisect_right
import courses
from courses import BAD, CODE, NAMES, UNSET, by_courses, by_sets

LIMIT = courses.MOST_WORDS


def abc(name, a=0, b=0, c=0, k=0):
    return CODE[name] | a << 7 | k << 15 | b << 16 | c << 24


def abx(name, a, bx):
    return CODE[name] | a << 7 | bx << 15


def jump(p, q):
    return CODE["JMP"] | (q - p - 1 + 16777215) << 7


EXTRA = CODE["EXTRAARG"]
SETTERS = "LOADI LOADF LOADK LOADFALSE LOADTRUE LOADNIL GETUPVAL GETTABUP CLOSURE VARARG".split()
USERS = """MOVE MOVE SETUPVAL GETTABLE GETI GETFIELD SETTABUP SETTABLE SETI SETFIELD SELF UNM BNOT NOT LEN CONCAT
CLOSE TBC CALL CALL CALL VARARG SETLIST VARARGPREP""".split()
TESTS = "EQ LT LE EQK EQI LTI LEI GTI GEI TEST TESTSET TESTSET".split()
ARITHMETIC = NAMES[CODE["ADDI"] : CODE["SHR"] + 1]
METAMETHODS = NAMES[CODE["MMBIN"] : CODE["MMBINK"] + 1]
RANGES = [CODE[name] for name in ("CONCAT", "CALL", "TAILCALL", "RETURN", "SETLIST")]  # B is a count


class Maker:
    """Random functions: whole groups of words, over few registers, with targets among the groups. `high` says how
    often a register is near 255, so that sums pass it, `loose` how often a target is any word, `branches` how often a
    group is one that branches, jumps or ends, and `returns` how many of those that end are left."""

    def __init__(self, rng, length, registers, high=0.0, loose=0.0, branches=0.4, returns=1.0):
        self.rng, self.length, self.registers, self.returns = rng, length, registers, returns
        self.high, self.loose, self.branches = high, loose, branches
        self.words, self.starts, self.open = [], [], []

    def register(self):
        rng = self.rng
        if self.high and rng.random() < self.high:
            return rng.choice((250, 251, 252, 253, 254, 255))
        return rng.randrange(self.registers)

    def few(self):
        rng = self.rng
        if self.high and rng.random() < self.high / 2:
            return rng.choice((1, 2, 3, 5, 6, 127, 254, 255))
        return rng.choice((0, 0, 1, 1, 1, 2, 2, 3, 4))

    def plain(self, name):
        rng = self.rng
        a, b, c, k = self.register(), self.register(), self.register(), rng.randrange(2)
        if name in ("CONCAT", "CALL", "TAILCALL", "RETURN", "SETLIST", "LOADNIL"):
            b = self.few()
            if name == "LOADNIL" and rng.random() < 0.5:
                b = 0
        if name in ("CALL", "VARARG", "TFORCALL"):
            c = self.few()
        return abc(name, a, b, c, k)

    def put(self, word):
        self.words.append(word)

    def group(self):
        rng = self.rng
        kind = rng.random()
        self.starts.append(len(self.words))
        if kind < self.branches:
            which = rng.randrange(10)
            if which < 4:
                self.put(self.plain(rng.choice(TESTS)))
                self.open.append(("JMP", len(self.words)))
                self.put(0)
                if rng.random() < 0.1:
                    self.starts.append(len(self.words) - 1)
            elif which == 4:
                self.open.append(("JMP", len(self.words)))
                self.put(0)
            elif which == 5:
                self.open.append((rng.choice(("FORLOOP", "TFORLOOP")), len(self.words)))
                self.put(0)
            elif which == 6:
                self.open.append(("FORPREP", len(self.words)))
                self.put(0)
            elif which == 7:
                self.open.append(("TFORPREP", len(self.words)))
                self.put(0)
            elif which == 8:
                self.put(self.plain("TFORCALL"))
                self.open.append(("TFORLOOP", len(self.words)))
                self.put(0)
            elif rng.random() < self.returns:
                self.put(self.plain(rng.choice(("RETURN", "RETURN0", "RETURN1", "TAILCALL"))))
            else:
                self.put(self.plain(rng.choice(SETTERS)))
        elif kind < self.branches + 0.12:
            self.put(self.plain(rng.choice(ARITHMETIC)))
            self.put(self.plain(rng.choice(METAMETHODS)))
            if rng.random() < 0.1:
                self.starts.append(len(self.words) - 1)
        elif kind < self.branches + 0.15:
            which = rng.randrange(4)
            if which == 0:
                self.put(self.plain("LFALSESKIP"))
                self.put(self.plain(rng.choice(SETTERS + USERS)))
            else:
                word = self.plain(("LOADKX", "NEWTABLE", "SETLIST")[which - 1])
                self.put(word | 1 << 15)
                self.put(EXTRA | rng.getrandbits(25) << 7)
        elif kind < self.branches + 0.15 + (1 - self.branches - 0.15) * 0.4:
            self.put(self.plain(rng.choice(SETTERS)))
        else:
            name = rng.choice(USERS)
            word = self.plain(name)
            self.put(word & ~(1 << 15) if name == "SETLIST" else word)

    def target(self, least, most):
        """A word number among those, at the start of a group if there is one."""
        if least > most:
            return None
        if self.rng.random() >= self.loose:
            low, high = bisect_left(self.starts, least), bisect_right(self.starts, most)
            if low < high:
                return self.starts[self.rng.randrange(low, high)]
        return self.rng.randint(least, most)

    def function(self):
        while len(self.words) < self.length - 1:
            self.group()
        self.starts.append(len(self.words))
        self.put(self.plain(self.rng.choice(("RETURN", "RETURN0", "RETURN1", "TAILCALL"))))
        n = len(self.words)
        calls = [p for p in range(n) if self.words[p] & 127 == CODE["TFORCALL"]]
        for name, p in self.open:
            a = self.register()
            word = None
            if name == "JMP":
                word = jump(p, self.target(0, n - 1))
            elif name in ("FORLOOP", "TFORLOOP"):
                q = self.target(0, p + 1)
                word = abx(name, a, p + 1 - q)
            elif name == "FORPREP":
                q = self.target(p + 2, n - 1)
                word = None if q is None else abx(name, a, q - p - 2)
            elif name == "TFORPREP":
                later = [q for q in calls if q > p]
                word = abx(name, a, self.rng.choice(later) - p - 1) if later else None
            self.words[p] = self.plain("LOADI") if word is None else word
        return self.words


def short_function(rng):
    return Maker(
        rng,
        rng.randint(1, 10),
        rng.choice((1, 2, 2, 3, 3, 4, 6)),
        high=rng.choice((0, 0, 0, 0.5)),
        loose=rng.choice((0, 0, 0.05, 0.3)),
        branches=rng.choice((0.2, 0.4, 0.6)),
    ).function()


def long_function(rng):
    most = rng.choice((60, 200, 200, 600, 2000))
    return Maker(
        rng,
        rng.randint(12, most),
        rng.choice((2, 4, 8, 16, 60, 250)),
        high=rng.choice((0, 0, 0, 0.1)),
        loose=rng.choice((0, 0, 0, 0.002)),
        branches=rng.choice((0.1, 0.25, 0.4)),
        returns=0.1,
    ).function()


def mended(rng, words, parameters, reading, rounds):
    """The function with setters put where it is turned back, or harmless words: barely accepted, often."""
    words = list(words)
    for _ in range(rounds):
        number, place, _marks = reading(words, parameters, len(words))
        if number == BAD:
            words[place] = abc("RETURN0")
        elif number == UNSET:
            word = courses.Word(words, place)
            if place and rng.random() < 0.5 and words[place] & 127 not in (CODE["JMP"], EXTRA):
                words[place] = abc("LOADNIL", rng.randrange(6), rng.randrange(3))
            else:
                need = [r for r in range(word.reads.bit_length()) if word.reads >> r & 1]
                words.insert(0, abc("LOADNIL", min(255, rng.choice(need)), rng.randrange(2)))
        else:
            return words
    return words


def fitted(rng, words, parameters, rounds):
    """The function with the registers of words that are turned back chosen anew, among those that are set there on
    every course: accepted, often, with reads far behind their setters."""
    words = list(words)
    for _ in range(rounds):
        nodes = courses.graph(words)
        held, sound = courses.sets(nodes, parameters), True
        for p, here in enumerate(held):
            if here is None or not nodes[p].reads & ~here:
                continue
            sound = False
            free = [r for r in range(min(256, here.bit_length())) if here >> r & 1]
            bx = courses.ROWS[words[p] & 127] in ("loop", "forprep", "tforprep")
            for _ in range(8 if free else 0):
                a, b, c = rng.choice(free), rng.choice(free), rng.choice(free)
                if courses.ROWS[words[p] & 127] in ("forprep", "tforprep", "tforcall", "loop"):
                    a = max(0, a - rng.choice((2, 3, 4)))
                word = words[p] & ~0x7F80 | a << 7
                if not bx:
                    word = word & 0xFFFF | (rng.choice((1, 2)) if word & 127 in RANGES else b) << 16 | c << 24
                around = [words[p - 1] if p else 0, word, words[p + 1] if p + 1 < len(words) else 0]
                if not courses.registers(around, 1, courses.steps(words, p))[0] & ~here:
                    words[p] = word
                    break
            else:
                row = courses.ROWS[words[p] & 127]
                if row == "none":
                    words[p] = abc("RETURN0")
                elif row in ("next", "forprep") or words[p] & 0x807F == CODE["SETLIST"]:
                    words[p] = abc("LOADI", rng.randrange(30))
        if sound:
            break
    return words


def redirected(rng, words):
    """One setter sets another register, or one jump leads elsewhere."""
    words = list(words)
    for _ in range(20):
        p = rng.randrange(len(words))
        row = courses.ROWS[words[p] & 127]
        if row == "jump":
            words[p] = jump(p, max(0, min(len(words) - 1, p + rng.randint(-60, 60))))
            break
        if words[p] & 127 in [CODE[name] for name in SETTERS]:
            words[p] = words[p] & ~0x7F80 | rng.randrange(60) << 7
            break
    return words


def damaged(rng, words, times):
    words = list(words)
    for _ in range(times):
        i, how = rng.randrange(len(words)), rng.randrange(6)
        if how < 2:
            words[i] ^= 1 << rng.randrange(32)
        elif how == 2:
            j = rng.randrange(len(words))
            words[i], words[j] = words[j], words[i]
        elif how == 3:
            words[i] = words[i] & ~0x7F80 | rng.randrange(8) << 7
        elif how == 4:
            words[i] = abc(rng.choice(SETTERS + USERS), rng.randrange(8), rng.randrange(8), rng.randrange(8))
        elif len(words) > 1:
            if rng.randrange(2):
                del words[i]
            else:
                words = words[: i + 1]
    return words

def lend(rng, words, parameters):
    """A case: marks of the words' length, longer, or now and then shorter."""
    n, how = len(words), rng.randrange(40)
    length = n
    if how < 8:
        length = n + rng.choice((1, 2, 7, 8, 9, 31, 32, 33, 100))
    elif how == 8 and n:
        length = rng.choice((0, n - 1, rng.randrange(n)))
    return words, parameters, length, rng.randrange(256)

def limits(rng):
    """Counts of words and marks around every limit; every parameter count."""
    end, nil = abc("RETURN0"), abc("LOADNIL", 0)
    for n in (0, 1, 2, LIMIT - 1, LIMIT, LIMIT + 1):
        for length in {0, max(0, n - 1), n, n + 1, LIMIT, LIMIT + 40}:
            ends = (end, abc("RETURN1", 0), abc("RETURN1", 200), 127)
            for last in ends if n < 3 or length == n else ends[3:]:
                yield (([nil] * (n - 1) + [last]) if n else []), rng.choice((0, 1, 255)), length, rng.randrange(256)
    for parameters in range(256):
        for r in {0, 1, parameters - 1, parameters, parameters + 1, 254, 255}:
            if 0 <= r <= 255:
                yield [abc("RETURN1", r)], parameters, 1, 0
                yield [abc("LOADNIL", 255, 255), abc("SETLIST", r, 255), end], parameters, 4, 9
                yield [abc("LOADNIL", parameters, 255 - parameters), abc("SETLIST", r, 255 - r), end], parameters, 4, 9
    for _ in range(200):
        yield [], rng.randrange(256), rng.randrange(40), rng.randrange(256)


PARAMETERS = (0, 0, 1, 1, 2, 3, 5, 255)


def shorts(rng, many):
    for i in range(many):
        parameters = rng.choice(PARAMETERS)
        words = short_function(rng)
        if i % 3 == 1:
            words = mended(rng, words, parameters, by_courses, 6)[:12]
        elif i % 3 == 2 and i % 2:
            words = damaged(rng, mended(rng, words, parameters, by_courses, 4)[:12], 1)
        yield lend(rng, words, parameters)


def longs(rng, many):
    for i in range(many):
        parameters = rng.choice(PARAMETERS)
        words = long_function(rng)
        if i % 3 == 1:
            words = mended(rng, words, parameters, by_sets, 4)
        elif i % 3 == 2:
            parameters = rng.choice((1, 2, 3))
            words = fitted(rng, words, parameters, 8)
        if i % 2 and i % 3:
            words = rng.choice((redirected(rng, words), damaged(rng, words, 1)))
        yield lend(rng, words, parameters)


def longest(rng, many):
    """Functions of as many words as may be, or nearly."""
    for i in range(many):
        n, parameters = LIMIT - rng.choice((0, 0, 1, 500)), rng.choice((1, 3, 255))
        registers = rng.choice((3, 20, 250))
        words = Maker(rng, n - 9, registers, loose=0.0001 * (i % 5 == 4), branches=0.2, returns=0.01).function()
        if i % 3 == 1:  # most registers set: the place, if there is one, is any
            words = [abc("LOADNIL", 0, 255), abc("LOADNIL", 255, rng.choice((4, 254)))][: rng.randint(1, 2)] + words
        elif i % 3 == 2:
            words = redirected(rng, fitted(rng, words, parameters, 3))
        yield lend(rng, words + [abc("MOVE", 0, 77)] * (n - len(words)), parameters)


def pairs(rng):
    """All pairs of opcode values, over three registers, and an end that reads them."""

    def fields():
        return rng.randrange(3) << 7 | rng.randrange(2) << 15 | rng.randrange(3) << 16 | rng.randrange(3) << 24

    end = lambda registers: abc("RETURN1", rng.randrange(registers))
    for first in range(128):
        for second in range(128):
            words = [first | fields(), second | fields(), end(4), end(3)]
            for i, word in enumerate(words[:2]):
                if word & 127 == CODE["JMP"]:
                    words[i] = jump(i, rng.randrange(4))
                elif CODE["FORLOOP"] <= word & 127 <= CODE["TFORPREP"] or word & 127 == CODE["TFORLOOP"]:
                    words[i] = word & 0x7FFF | rng.randrange(3) << 15
            yield lend(rng, words, rng.randrange(3))


def real(path):
    for line in open(path, encoding="utf-8"):
        parameters, *words = map(int, line.split())
        yield parameters, words

def real_damaged(rng, functions, many):
    for _ in range(many):
        parameters, words = rng.choice(functions)
        if rng.randrange(4) == 0:
            parameters = rng.choice((0, 1, max(0, parameters - 1), parameters + 1, 255)) & 255
        yield lend(rng, damaged(rng, words, rng.choice((1, 1, 1, 2, 5))), parameters)
