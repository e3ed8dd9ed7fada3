"""Readings of C-15 that are wrong on purpose, each by one mistake: the comparison has to catch them all."""
import courses
from courses import ACCEPTED, BAD, CODE, SHORT, UNSET, by_courses, by_sets


def changed(word_of, words, parameters, length, order=min, stop=False, first=None):
    """by_courses with a part exchanged."""
    refused = courses.refused_first(words, length)
    if refused:
        return refused
    nodes = [word_of(words, p) for p in range(len(words))]
    marks, broken = bytearray(len(words)), []
    start = (0, courses.first_set(parameters) if first is None else first)
    met, to_do = {start}, [start]
    while to_do:
        p, held = to_do.pop(0)
        node = nodes[p]
        marks[p] = 1
        if node.reads & ~held:
            broken.append(p)
            if stop:
                continue
        for q, written in node.steps.items():
            if (q, held | written) not in met:
                met.add((q, held | written))
                to_do.append((q, held | written))
    number, place, marks = courses.answer(nodes, marks, broken)
    return number, order(broken) if number == UNSET else place, marks


def edited(edit):
    """A word as the reading has it, then edited: the word, what it touches, its number."""

    def word_of(words, p):
        word = courses.Word(words, p)
        if not word.bad:
            edit(word, courses.Touched(words, p), words, p)
        return word

    return lambda words, parameters, length: changed(word_of, words, parameters, length)


def edge_on_every_step(word, t, _words, _p):
    for q in word.steps:
        word.steps[q] |= courses.bits(t.edge_writes)


def edge_on_no_step(word, t, _words, _p):
    for q in word.steps:
        word.steps[q] = courses.bits(t.writes)


def edge_on_the_other_step(word, t, _words, _p):
    for q in word.steps:
        word.steps[q] = courses.bits(t.writes) | (0 if q == t.edge else courses.bits(t.edge_writes))


def own_write_serves(word, t, _words, _p):
    word.reads &= ~courses.bits(t.writes)


def top_sets(word, t, _words, _p):
    for kind, first in t.writes:
        if kind == "T":
            for q in word.steps:
                word.steps[q] |= (1 << 600) - (1 << first)


def top_is_needed(word, t, _words, _p):
    for kind, first in t.reads:
        if kind == "T":
            word.reads |= 1 << first


def tforcall_sets_one(word, _t, words, p):
    if words[p] & 127 == CODE["TFORCALL"]:
        for q in word.steps:
            word.steps[q] |= 1 << (words[p] >> 7 & 255) + 4


def metamethod_sets_own_a(word, _t, words, p):
    if CODE["MMBIN"] <= words[p] & 127 <= CODE["MMBINK"]:
        for q in word.steps:
            word.steps[q] = 1 << (words[p] >> 7 & 255)


def past_255_is_255(word, _t, _words, _p):
    low = lambda held: held & (1 << 255) - 1 | (1 << 255 if held >> 255 else 0)
    word.reads = low(word.reads)
    for q in word.steps:
        word.steps[q] = low(word.steps[q])


def past_255_unlooked(word, _t, _words, _p):
    word.reads &= (1 << 256) - 1


def close_reads(word, _t, words, p):
    if words[p] & 127 == CODE["CLOSE"]:
        word.reads |= 1 << (words[p] >> 7 & 255)


def first_found(words, parameters, length):
    return changed(courses.Word, words, parameters, length, order=lambda broken: broken[0])


def highest(words, parameters, length):
    return changed(courses.Word, words, parameters, length, order=max)


def stops_at_the_first_break(words, parameters, length):
    number, place, marks = changed(courses.Word, words, parameters, length, stop=True)
    right = by_courses(words, parameters, length)
    return (number, place, right[2]) if right[0] == UNSET else right


def marks_of_unbroken_courses(words, parameters, length):
    _number, _place, marks = changed(courses.Word, words, parameters, length, stop=True)
    right = by_courses(words, parameters, length)
    return (*right[:2], marks) if right[0] == UNSET else right


def one_parameter_more(words, parameters, length):
    return changed(courses.Word, words, parameters, length, first=courses.first_set(parameters + 1))


def one_parameter_less(words, parameters, length):
    return changed(courses.Word, words, parameters, length, first=courses.first_set(max(0, parameters - 1)))


def set_on_some_way(words, parameters, length):
    """Sets are joined, not met."""
    right = by_courses(words, parameters, length)
    if right[0] not in (ACCEPTED, UNSET):
        return right
    nodes, n = courses.graph(words), len(words)
    held = [0] * n
    held[0], again = courses.first_set(parameters), True
    while again:
        again = False
        for p in range(n):
            for q, written in nodes[p].steps.items() if right[2][p] else ():
                if (held[p] | written) & ~held[q]:
                    held[q], again = held[q] | held[p] | written, True
    broken = [p for p in range(n) if right[2][p] and nodes[p].reads & ~held[p]]
    return (UNSET, min(broken), right[2]) if broken else (ACCEPTED, 0, right[2])


def unreachable_words_count(words, parameters, length):
    right = by_courses(words, parameters, length)
    if right[0] not in (ACCEPTED, UNSET):
        return right
    nodes = courses.graph(words)
    broken = [p for p in range(len(words)) if not right[2][p] and not nodes[p].bad and nodes[p].reads >> parameters]
    if right[0] == UNSET:
        broken.append(right[1])
    return (UNSET, min(broken), right[2]) if broken else right


def by_word_order(words, parameters, length):
    """What lower words wrote is set, wherever control came from."""
    right = by_courses(words, parameters, length)
    if right[0] not in (ACCEPTED, UNSET):
        return right
    held = courses.first_set(parameters)
    for p, node in enumerate(courses.graph(words)):
        if right[2][p]:
            if node.reads & ~held:
                return UNSET, p, right[2]
            for written in node.steps.values():
                held |= written
    return ACCEPTED, 0, right[2]


def unset_before_bad(words, parameters, length):
    number, place, marks = by_courses(words, parameters, length)
    if number == BAD:
        nodes = courses.graph(words)
        if marks[0] and nodes[0].reads >> parameters:
            return UNSET, 0, marks
    return number, place, marks


def no_marks(words, parameters, length):
    number, place, marks = by_courses(words, parameters, length)
    return number, place, bytes(len(marks)) if number == UNSET else marks


def short_marks_before_too_many(words, parameters, length):
    """6 is tried before 1."""
    if length < len(words):
        return SHORT, 0, None
    return by_courses(words, parameters, length) if len(words) < 50 else by_sets(words, parameters, length)


WRONG = [
    (edit.__name__, edited(edit))
    for edit in (
        edge_on_every_step,
        edge_on_no_step,
        edge_on_the_other_step,
        own_write_serves,
        top_sets,
        top_is_needed,
        tforcall_sets_one,
        metamethod_sets_own_a,
        past_255_is_255,
        past_255_unlooked,
        close_reads,
    )
] + [
    (wrong.__name__, wrong)
    for wrong in (
        first_found,
        highest,
        stops_at_the_first_break,
        marks_of_unbroken_courses,
        one_parameter_more,
        one_parameter_less,
        set_on_some_way,
        unreachable_words_count,
        by_word_order,
        unset_before_bad,
        no_marks,
        short_marks_before_too_many,
    )
]
