"""Registers set before use: document 02, C-15, read a second time in plain Python, from its words.

Nothing here is taken from the Rattle crates. The lists are those of ../touches/reading.py, a second
reading of C-14. Three readings of C-15 stand beside each other:

- `course_by_course` takes every course of at most n words, one list of word numbers at a time, and
  asks the document's question of each: a few words only;
- `by_courses` follows all courses with what was set on the way, a state being a word and a set of
  registers: exact, for short functions;
- `by_sets` keeps for each word what is set on every way to it and shrinks that until nothing
  changes, all registers at once: for long functions.

Each answers number, place and marks; the marks are None where nothing may be altered. A set of
registers is a Python integer, bit r for register r.
"""
import os, sys
from heapq import heappop, heappush

sys.path.append(os.path.join(os.path.dirname(os.path.abspath(__file__)), "..", "touches"))
from reading import CODE, NAMES, Touched, reads, ways, written  # noqa: E402, F401

MOST_WORDS = 32768
ACCEPTED, TOO_MANY, SHORT, NONE, BAD, UNSET = 0, 1, 6, 7, 8, 17


def bits(places):
    """The registers that are named, one by one; what goes up to the stack top names none."""
    found = 0
    for kind, index in places:
        if kind == "R":
            found |= 1 << index
    return found


def step_rows():
    """Document 01's table of steps: a row's name for each opcode value."""
    rows = ["next"] * 128
    for row, first, last in (
        ("none", 69, 72),
        ("arithmetic", 21, 45),
        ("metamethod", 46, 48),
        ("test", 57, 67),
        ("skip", 6, 6),
        ("extended", 4, 4),
        ("extended", 19, 19),
        ("setlist", 78, 78),
        ("jump", 56, 56),
        ("loop", 73, 73),
        ("loop", 77, 77),
        ("forprep", 74, 74),
        ("tforprep", 75, 75),
        ("tforcall", 76, 76),
        ("bad", 82, 127),
    ):
        for value in range(first, last + 1):
            rows[value] = row
    return rows


ROWS = step_rows()


def steps(words, p):
    """The ways on from a word by that table, two of which may lead to one word; None for a bad word."""
    n, word = len(words), words[p]
    row = ROWS[word & 127]
    after = ROWS[words[p + 1] & 127] if p + 1 < n else None
    if row == "next":
        return (p + 1,) if p + 1 < n else None
    if row == "test":
        return (p + 1, p + 2) if after == "jump" and p + 2 < n else None
    if row == "arithmetic":
        return (p + 1, p + 2) if after == "metamethod" and p + 2 < n else None
    if row == "metamethod":
        return (p + 1,) if p > 0 and ROWS[words[p - 1] & 127] == "arithmetic" and p + 1 < n else None
    if row == "jump":
        q = p + 1 + (word >> 7) - 16777215
        return (q,) if 0 <= q < n else None
    if row == "none":
        return ()
    if row == "loop":
        q = p + 1 - (word >> 15)
        return (q, p + 1) if q >= 0 and p + 1 < n else None
    if row == "forprep":
        q = p + 2 + (word >> 15)
        return (p + 1, q) if q < n else None
    if row == "tforprep":
        q = p + 1 + (word >> 15)
        return (q,) if q < n and ROWS[words[q] & 127] == "tforcall" else None
    if row == "tforcall":
        return (p + 1,) if after == "loop" and words[p + 1] & 127 == CODE["TFORLOOP"] else None
    if row == "skip":
        return (p + 2,) if p + 2 < n else None
    if row == "setlist" and not word >> 15 & 1:
        return (p + 1,) if p + 1 < n else None
    if row in ("setlist", "extended"):
        return (p + 2,) if p + 2 < n and words[p + 1] & 127 == CODE["EXTRAARG"] else None
    return None


named = {}  # by a word, and the A that a metamethod word takes from the one before it


def registers(words, p, leading):
    """The registers that a good word reads, and those written on each way on."""
    key = words[p], words[p - 1] & 0x7F80 if ROWS[words[p] & 127] == "metamethod" else None
    found = named.get(key)
    if found is None:
        found = bits(reads(words, p)), [bits(places) for places in written(words, p, leading)]
        assert len(found[1]) == len(leading)
        named[key] = found
    return found


class Word:
    """A word's steps, each with the registers named as written on it, and the registers it reads. Where two ways lead
    to one word they are one step, with which a write on either is listed."""

    __slots__ = ("bad", "reads", "steps")

    def __init__(self, words, p):
        leading = steps(words, p)
        self.bad, self.reads, self.steps = leading is None, 0, {}
        if leading is not None:
            self.reads, on = registers(words, p, leading)
            for q, there in zip(leading, on):
                self.steps[q] = self.steps.get(q, 0) | there


def listed(words, p):
    """The same by C-14's answer for the word, whose lists are `writes`, and `edge_writes` on the step to `edge`."""
    word, t = Word([127], 0), Touched(words, p)
    word.bad, word.reads = t.bad, bits(t.reads)
    for q in ways(words, p) or ():
        word.steps[q] = bits(t.writes) | (bits(t.edge_writes) if q == t.edge else 0)
    return word


held_graph = None, None


def graph(words):
    """The words of a function; that of the last one asked for is kept."""
    global held_graph
    if held_graph[0] != words:
        held_graph = list(words), [Word(words, p) for p in range(len(words))]
    return held_graph[1]


def first_set(parameters):
    """What is set at word 0."""
    return (1 << parameters) - 1


def refused_first(words, marks_n):
    """What is refused before a word is looked at."""
    if len(words) > MOST_WORDS:
        return TOO_MANY, 0, None
    if marks_n < len(words):
        return SHORT, 0, None
    if not words:
        return NONE, 0, None
    return None


def answer(nodes, marks, broken):
    bad = [p for p, node in enumerate(nodes) if marks[p] and node.bad]
    if bad:
        return BAD, min(bad), bytes(marks)
    if broken:
        return UNSET, min(broken), bytes(marks)
    return ACCEPTED, 0, bytes(marks)


def course_by_course(words, parameters, marks_n):
    refused = refused_first(words, marks_n)
    if refused:
        return refused
    nodes = graph(words)
    marks, broken = bytearray(len(words)), set()

    def breaks(course):
        """Whether this course breaks the rule at its last word."""
        needed = nodes[course[-1]].reads
        for r in range(needed.bit_length()):
            if needed >> r & 1 and not r < parameters:
                if not any(nodes[p].steps[q] >> r & 1 for p, q in zip(course, course[1:])):
                    return True
        return False

    courses = [[0]]
    while courses:
        course = courses.pop()
        marks[course[-1]] = 1
        if breaks(course):
            broken.add(course[-1])
        # A course that breaks the rule at its last word does so without its rounds: n words are enough.
        if len(course) < len(words):
            courses.extend(course + [q] for q in nodes[course[-1]].steps)
    return answer(nodes, marks, broken)


def by_courses(words, parameters, marks_n):
    refused = refused_first(words, marks_n)
    if refused:
        return refused
    nodes = graph(words)
    marks, broken = bytearray(len(words)), set()
    start = (0, first_set(parameters))
    met, to_do = {start}, [start]
    while to_do:
        p, held = to_do.pop()
        node = nodes[p]
        marks[p] = 1
        if node.reads & ~held:
            broken.add(p)  # and the course goes on
        for q, written in node.steps.items():
            state = (q, held | written)
            if state not in met:
                met.add(state)
                to_do.append(state)
    return answer(nodes, marks, broken)


def sets(nodes, parameters):
    """For each word the registers that are set there on every course; None where no course comes."""
    n = len(nodes)
    held = [None] * n
    held[0] = first_set(parameters)
    waiting, to_do = bytearray(n), [0]
    while to_do:
        p = heappop(to_do)  # lowest first
        waiting[p] = 0
        here = held[p]
        for q, there in nodes[p].steps.items():
            there |= here
            if held[q] is not None:
                there &= held[q]
            if there != held[q]:
                held[q] = there
                if not waiting[q]:
                    waiting[q] = 1
                    heappush(to_do, q)
    return held


def by_sets(words, parameters, marks_n):
    refused = refused_first(words, marks_n)
    if refused:
        return refused
    nodes = graph(words)
    held = sets(nodes, parameters)
    broken = [p for p, here in enumerate(held) if here is not None and nodes[p].reads & ~here]
    return answer(nodes, [here is not None for here in held], broken)
