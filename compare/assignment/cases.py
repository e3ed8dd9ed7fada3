"""Cases of document 02 and of the request, with their answers written down by hand."""
from functions import LIMIT, abc, abx, jump

END = abc("RETURN0")


def nil(first, more=0):
    """LOADNIL of register `first` and so many more."""
    return abc("LOADNIL", first, more)


def move(a, b):
    return abc("MOVE", a, b)


def test(a):
    return abc("TEST", a)


def numeric_for(after):
    """for 3 = 0, 1, 2: a read of its variable in the loop."""
    return [abx("FORPREP", 0, 1), move(4, 3), abx("FORLOOP", 0, 2), after, END]


def generic_for(results, inside=move(9, 4)):
    """for 4 .. in 0, 1, 2, 3: a read of its first variable in the loop, if nothing else stands there."""
    return [abx("TFORPREP", 0, 1), inside, abc("TFORCALL", 0, 0, results), abx("TFORLOOP", 0, 3), END]


def own_cases():
    """Name, parameters, number, place, words."""
    yield "MOVE A A with A unset", 1, 17, 0, [move(1, 1), END]
    yield "MOVE A A of a parameter", 1, 0, 0, [move(0, 0), END]
    yield "the last parameter", 255, 0, 0, [move(0, 254), END]
    yield "past the parameters", 255, 17, 0, [move(0, 255), END]
    yield "no parameters", 0, 17, 0, [abc("RETURN1", 0)]
    yield "a word's own write does not serve it", 1, 17, 0, [abc("CONCAT", 0, 2), END]
    yield "CALL with C 0 keeps what was set", 0, 0, 0, [nil(0), abc("CALL", 0, 1, 0), move(1, 0), END]
    yield "CALL with C 0, a read of a result", 0, 17, 2, [nil(0), abc("CALL", 0, 1, 0), move(0, 1), END]
    yield "CALL with C 3, a read of a result", 0, 0, 0, [nil(0), abc("CALL", 0, 1, 3), move(0, 1), END]
    yield "VARARG with C 0, then a plain read", 0, 17, 1, [abc("VARARG", 0, 0, 0), move(1, 0), END]
    yield "VARARG with C 0, then a call to the top", 0, 0, 0, [nil(0), abc("VARARG", 1), abc("CALL", 0, 0, 1), END]
    yield "VARARG with C 0, then RETURN to the top", 0, 0, 0, [abc("VARARG", 0), abc("RETURN", 0, 0)]
    yield "a call to the top needs its function", 0, 17, 1, [abc("VARARG", 1), abc("CALL", 0, 0, 1), END]
    yield "a return to the top needs nothing", 0, 0, 0, [abc("RETURN", 9, 0)]
    yield "CONCAT of none reads none", 0, 0, 0, [abc("CONCAT", 9, 0), abc("RETURN1", 9)]
    yield "generic for", 0, 0, 0, [nil(0, 3)] + generic_for(1)
    yield "TFORPREP needs A+3", 0, 17, 1, [nil(0, 2)] + generic_for(1)
    yield "TFORCALL needs A", 0, 17, 3, [nil(1, 2)] + generic_for(1)
    yield "TFORCALL with C 0 sets nothing", 0, 17, 4, [nil(0, 3)] + generic_for(0, move(9, 3))
    yield "the loop is broken at TFORLOOP, then lower", 0, 17, 2, [nil(0, 3)] + generic_for(0)
    yield "TFORLOOP's write on the way on", 0, 17, 2, [nil(4), abx("TFORLOOP", 0, 1), move(4, 2), END]
    yield "TFORLOOP with Bx 0 has one step", 0, 0, 0, [nil(4), abx("TFORLOOP", 0, 0), move(4, 2), END]
    yield "a numeric for's variable", 0, 0, 0, [nil(0, 2)] + numeric_for(END)
    yield "FORPREP sets A+3 on both steps", 0, 0, 0, [nil(0, 2)] + numeric_for(move(4, 3))
    yield "FORPREP needs A to A+2", 0, 17, 1, [nil(0, 1)] + numeric_for(END)
    yield "FORLOOP's writes on the way on", 0, 17, 2, [nil(0, 2), abx("FORLOOP", 0, 1), move(4, 3), END]
    yield "FORLOOP with Bx 0 has one step", 0, 0, 0, [nil(0, 2), abx("FORLOOP", 0, 0), move(4, 3), END]
    set_there = [nil(0), abc("TESTSET", 1, 0), jump(2, 4), END, move(2, 1), END]
    yield "TESTSET sets on the step to the JMP", 0, 0, 0, set_there
    yield "TESTSET sets nothing on the other", 0, 17, 3, [nil(0), abc("TESTSET", 1, 0), jump(2, 3), move(2, 1), END]
    add = abc("ADD", 1, 0, 0)
    yield "ADD past MMBIN", 0, 0, 0, [nil(0), add, abc("MMBIN", 0, 0, 6), move(2, 1), END]
    yield "ADD has set nothing at MMBIN", 0, 17, 2, [nil(0), add, abc("MMBIN", 1, 0, 6), move(2, 1), END]
    yield "unreachable words do not matter", 0, 0, 0, [END, move(1, 5), END]
    yield "a reachable bad word comes first", 0, 8, 1, [move(0, 0), 127]
    yield "broken before, and lower", 0, 17, 1, [jump(0, 3), move(0, 7), END, move(0, 6), jump(4, 1)]
    yield "set on one way only", 0, 17, 4, [nil(0), test(0), jump(2, 4), nil(1), move(2, 1), END]
    both = [nil(0), test(0), jump(2, 5), nil(1), jump(4, 6), nil(1), move(2, 1), END]
    yield "set on both ways", 0, 0, 0, both
    yield "a way back to word 0 sets nothing for it", 0, 17, 0, [test(0), jump(1, 3), END, nil(0), jump(4, 0)]
    yield "set past 255 and read there", 0, 0, 0, [nil(255, 255), abc("SETLIST", 255, 255), END]
    yield "510 unset", 0, 17, 1, [nil(255, 254), abc("SETLIST", 255, 255), END]
    past = [nil(252, 3), abc("TFORCALL", 252, 0, 0), abx("TFORLOOP", 252, 0), END]
    yield "256 unset, as A+4 of 252", 0, 17, 2, past
    yield "256 set, as A+4 of 252", 0, 0, 0, [past[0], abc("TFORCALL", 252, 0, 1), *past[2:]]
    yield "no words", 0, 7, 0, []
    yield "too many words", 0, 1, 0, [END] * (LIMIT + 1)
    yield "as many as may be", 0, 0, 0, [END] * LIMIT
