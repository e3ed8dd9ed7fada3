"""check.py SIDE REAL [SEED] [SHORT] [LONG]: holds one side (a program made of side.c) against the second
readings of courses.py, case by case: number, place, and every byte of the marks that are lent.

Cases: short functions against the reading that follows courses, and the shortest course by course;
long ones against the data-flow reading; the functions of REAL whole, with every parameter count, and
damaged; limits; the document's own cases. Ends with status 1 at the first difference, or if a reading
that is wrong on purpose (WRONG) is not caught."""
import random, struct, subprocess, sys, time
from collections import Counter
import courses
from cases import own_cases
from courses import ACCEPTED, BAD, CODE, NAMES, UNSET, by_courses, by_sets, course_by_course
from functions import LIMIT, lend, limits, longest, longs, pairs, real, real_damaged, short_function, shorts
from wrong import WRONG

RISING = bytes(7 * i & 255 for i in range(1 << 18))


def before(first, length):
    """The marks as they are lent: first, first + 7, .."""
    start = first * 183 & 255  # 7 * 183 is 1, as a byte
    return RISING[start : start + length]


class Side:
    def __init__(self, program):
        self.program = program

    def answers(self, cases):
        """Number, place and marks for each case: words, parameters, length of the marks, first byte."""
        text = b"".join(
            struct.pack(f"<4I{len(words)}I", len(words), parameters, length, first, *words)
            for words, parameters, length, first in cases
        )
        ran = subprocess.run([self.program], input=text, capture_output=True)
        if ran.returncode:
            print(f"the side stopped with {ran.returncode}: {ran.stderr.decode()}")
            sys.exit(1)
        out, at, found = ran.stdout, 0, []
        for _words, _parameters, length, _first in cases:
            number, place = struct.unpack_from("<2Q", out, at)
            found.append((number, place, out[at + 16 : at + 16 + length]))
            at += 16 + length
        assert at == len(out)
        return found


def wanted(reading, case):
    words, parameters, length, first = case
    number, place, marks = reading(words, parameters, length)
    lent = before(first, length)
    return number, place, lent if marks is None else marks + lent[len(words) :]

MOST = {course_by_course: 7, by_courses: 25}  # words of a function that is followed


class Comparison:
    def __init__(self, side):
        self.side, self.total, self.words, self.met = side, 0, 0, Counter()
        self.started = time.time()

    @staticmethod
    def show(case, got, want, who):
        words, parameters, length, first = case
        print(f"differs, {who}: {parameters} parameters, marks {length} from {first}, words {words}")
        print(f"  side    {got[0]} {got[1]} {got[2][:40].hex()}\n  reading {want[0]} {want[1]} {want[2][:40].hex()}")

    def group(self, label, cases, readings):
        """Holds the side against the readings, on all cases that are not too long for them."""
        batch, counts, seen, reached, late, asked = [], Counter(), 0, 0, 0, Counter()

        def flush():
            nonlocal seen, reached, late
            for case, got in zip(batch, self.side.answers(batch)):
                for reading in readings:
                    if len(case[0]) > MOST.get(reading, LIMIT + 1):
                        continue
                    want = wanted(reading, case)
                    asked[reading.__name__] += 1
                    if got != want:
                        self.show(case, got, want, reading.__name__)
                        sys.exit(1)
                counts[got[0]] += 1
                late += got[0] == UNSET and got[1] > 0
                seen += len(case[0])
                if got[0] in (ACCEPTED, UNSET):
                    good = [word & 127 for word, mark in zip(case[0], got[2]) if mark]
                    reached += len(good)
                    self.met.update(good)
            batch.clear()

        for case in cases:
            batch.append(case)
            if len(batch) == 2000:
                flush()
        flush()
        many = sum(counts.values())
        self.total += many
        self.words += seen
        by = ", ".join(f"{number}: {counts[number]}" for number in sorted(counts))
        of = ", ".join(f"{name} {count}" for name, count in asked.items())
        print(f"{label}: {many} functions of {seen} words, none differs", flush=True)
        print(f"  by reading: {of}; answers by number: {by}")
        print(f"  17 past word 0: {late}; words reached in functions without a bad one: {reached}")
        return counts


def turned_back_without(code, functions):
    """Whether some real function is turned back by the reading if the writes of this opcode do not count."""
    for parameters, words in functions:
        if any(word & 127 == code for word in words):
            nodes = [courses.Word(words, p) for p in range(len(words))]
            for node, word in zip(nodes, words):
                if word & 127 == code:
                    node.steps = dict.fromkeys(node.steps, 0)
            courses.held_graph = list(words), nodes
            turned = by_sets(words, parameters, len(words))[0] == UNSET
            courses.held_graph = None, None
            if turned:
                return True
    return False


def main():
    program, path = sys.argv[1:3]
    seed, short, long = [int(text) for text in sys.argv[3:]] + [1, 300000, 3000][len(sys.argv) - 3 :]
    rng, side = random.Random(seed), Side(program)
    print(f"seed {seed}")
    comparison = Comparison(side)
    own = list(own_cases())
    for name, parameters, number, place, words in own:
        got = side.answers([(words, parameters, len(words), 1)])[0]
        if got[:2] != (number, place):
            print(f"differs: {name}: {got[0]} {got[1]}, wanted {number} {place}; {words[:20]}")
            sys.exit(1)
    print(f"cases with their answers written down: {len(own)}, none differs")
    again = [(words, parameters, len(words), 1) for _, parameters, _, _, words in own]
    comparison.group("those again", again, [by_sets, by_courses])
    comparison.group("limits", limits(rng), [by_sets, by_courses])
    many = 0
    for words, _parameters, _length, _first in list(pairs(rng)) + list(shorts(rng, 2000)):
        for p in range(len(words)):
            word, by_lists = courses.Word(words, p), courses.listed(words, p)
            assert (word.bad, word.reads, word.steps) == (by_lists.bad, by_lists.reads, by_lists.steps), (words, p)
            many += 1
    print(f"words as the readings take them, against C-14's answers by ../touches/reading.py: {many}, none differs")
    comparison.group("pairs of opcode values", pairs(rng), [by_courses, by_sets, course_by_course])
    comparison.group("short functions", shorts(rng, short), [by_courses, by_sets])
    comparison.group("shortest functions", shorts(rng, short // 6), [course_by_course, by_courses])
    comparison.group("long functions", longs(rng, long), [by_sets])
    comparison.group("functions of 32,268 to 32,768 words", longest(rng, max(4, long // 150)), [by_sets])
    functions = list(real(path))
    lent = [lend(rng, words, parameters) for parameters, words in functions for _ in range(3)]
    counts = comparison.group("real functions", lent, [by_sets, by_courses])
    if counts[UNSET] or counts[BAD]:
        print("a real function is turned back")
        sys.exit(1)
    counted = [(words, q, len(words), 0) for _, words in functions for q in (*range(10), 255)]
    comparison.group("real functions by 0 to 9 parameters and 255", counted, [by_sets, by_courses])
    needed = [name for name in NAMES if turned_back_without(CODE[name], functions)]
    print(f"opcodes without whose writes a real function would be turned back: {len(needed)}: {' '.join(needed)}")
    comparison.group("real functions, damaged", real_damaged(rng, functions, 7 * long), [by_sets, by_courses])
    never = [name for name in NAMES if not comparison.met[CODE[name]]]
    print(f"all: {comparison.total} functions of {comparison.words} words")
    print(f"opcodes reached in functions without a bad word: {83 - len(never)} of 83; never: {' '.join(never)}")

    pool = [lend(rng, short_function(rng), rng.choice((0, 1, 2, 255))) for _ in range(6000)]
    pool += list(shorts(rng, 6000))
    pool += [([0] * (LIMIT + 1), 0, 3, 0)]
    answers = side.answers(pool)
    failed = False
    for name, wrong in WRONG:
        found = [case for case, got in zip(pool, answers) if wanted(wrong, case) != got]
        if found:
            words, parameters, length, _ = min(found, key=lambda case: len(case[0]))
            shown = words if len(words) < 20 else len(words)
            print(f"wrong on purpose, {name}: caught by {len(found)} of {len(pool)} functions,")
            print(f"  as {parameters} parameters, marks of {length}, words {shown}")
        else:
            failed = True
            print(f"wrong on purpose, {name}: NOT CAUGHT")
    print(f"{time.time() - comparison.started:.0f} s", file=sys.stderr)
    sys.exit(failed)


if __name__ == "__main__":
    main()
