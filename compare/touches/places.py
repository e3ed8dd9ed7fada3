"""Places that a word touches, whatever the version of Lua, and the numbers of include/lawendeb.h's
struct in their order.

A place is a pair: ("R", register), ("K", constant), ("U", upvalue) or ("T", register), the last for
all registers from there up to the stack top.
"""


def R(*registers):
    return {("R", r) for r in registers}


def K(index):
    return {("K", index)}


def U(index):
    return {("U", index)}


def between(first, last):
    """Registers from the first to the last, none if the last is lower."""
    return R(*range(first, last + 1))


def of_kind(places, kind):
    return sorted(index for which, index in places if which == kind)


def ranges(places):
    """The registers among the places, in longest ranges."""
    found = []
    for r in of_kind(places, "R"):
        if found and found[-1][1] + 1 == r:
            found[-1][1] = r
        else:
            found.append([r, r])
    return found


ROOM = 3  # what each array holds


def ranges_numbers(places):
    found = ranges(places)
    flat = [number for pair in found for number in pair]
    return flat + [0] * (2 * ROOM - len(flat)) + [len(found)]


def indices_numbers(places, kind):
    found = of_kind(places, kind)
    return found + [0] * (ROOM - len(found)) + [len(found)]


def top_numbers(places):
    found = of_kind(places, "T")
    assert len(found) <= 1
    return [found[0], 1] if found else [0, 0]


class Places:
    """The places of a word: read, written on every way on, and written on the way to `edge` only. What
    a version of Lua says of a word is given by three functions."""

    def __init__(self, words, p, ways, reads, written):
        self.reads, self.writes, self.edge_writes, self.edge = set(), set(), set(), 0
        leading = ways(words, p)
        self.bad = leading is None
        if self.bad:
            return
        self.reads = reads(words, p)
        if not leading:
            return
        on = written(words, p, leading)
        assert len(on) == len(leading)
        self.writes = set.intersection(*on)
        rest = [(to, places - self.writes) for to, places in zip(leading, on) if places - self.writes]
        assert len(rest) <= 1
        for to, places in rest:
            self.edge, self.edge_writes = to, places

    def numbers(self):
        return (
            ranges_numbers(self.reads)
            + top_numbers(self.reads)
            + indices_numbers(self.reads, "K")
            + indices_numbers(self.reads, "U")
            + ranges_numbers(self.writes)
            + top_numbers(self.writes)
            + indices_numbers(self.writes, "U")
            + ranges_numbers(self.edge_writes)
            + [self.edge]
        )


NUMBERS = 38
