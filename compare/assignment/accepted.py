"""accepted.py SIDE FILES: reads chunks as dump.lua writes them from standard input, of the files named
in FILES one a line, and gives every function with its own number of parameters to the side and to the
data-flow reading, short ones to the reading that follows courses, too. All have to be accepted. Shows
those that are not, and what was found; ends with status 1 if there is one, if there is no function,
or if the side differs from a reading."""
import sys
from collections import Counter
import chunks, courses
from check import Side, wanted
from courses import NAMES


def text(word):
    name = NAMES[word & 127] if word & 127 < 83 else "?"
    return f"{name} A {word >> 7 & 255} k {word >> 15 & 1} B {word >> 16 & 255} C {word >> 24} Bx {word >> 15}"


def main():
    side, files = Side(sys.argv[1]), open(sys.argv[2], encoding="utf-8").read().split("\n")
    counts, opcodes, parameter_counts, longest = Counter(), Counter(), Counter(), 0
    turned, over, differing, seen, batch = [], 0, 0, set(), []

    def flush():
        nonlocal differing
        for (where, case), got in zip(batch, side.answers([case for _where, case in batch])):
            words, parameters, length, _first = case
            readings = [courses.by_sets] + ([courses.by_courses] if length <= 40 else [])
            for reading in readings:
                want = wanted(reading, case)
                counts[reading.__name__] += 1
                if want != got:
                    differing += 1
                    print(f"differs, {reading.__name__}: {where}: {got[:2]}, reading {want[:2]}")
                    print(f"  {parameters} parameters, words {words[:60]}")
            counts[got[0]] += 1
            opcodes.update(word & 127 for word, mark in zip(words, got[2]) if mark)
            parameter_counts[parameters] += 1
            if got[0]:
                turned.append((where, case, got))
        batch.clear()

    for name, found in zip(files, chunks.stream(sys.stdin.buffer)):
        counts["files" if found else "not compiled"] += 1
        for index, (parameters, words) in enumerate(found or ()):
            counts["functions"] += 1
            counts["words"] += len(words)
            longest = max(longest, len(words))
            if len(words) > courses.MOST_WORDS:
                over += 1
                continue
            key = parameters, tuple(words)
            if key in seen:
                counts["again"] += 1
                continue
            seen.add(key)
            batch.append(((name, index), (words, parameters, len(words), 0)))
            if len(batch) == 2000:
                flush()
    flush()
    print(f"  compiled {counts['files']} files, not {counts['not compiled']}", end="; ")
    print(f"{counts['functions']} functions of {counts['words']} words, the longest of {longest}")
    print(f"  left out: {over} over 32,768 words, {counts['again']} the same as one before")
    by = ", ".join(f"{number}: {counts[number]}" for number in sorted(n for n in counts if isinstance(n, int)))
    of = ", ".join(f"{name} {counts[name]}" for name in ("by_sets", "by_courses"))
    print(f"  answers by number: {by}; by reading: {of}; differing: {differing}")
    many = ", ".join(f"{number}: {parameter_counts[number]}" for number in sorted(parameter_counts))
    print(f"  functions by parameters: {many}")
    never = [name for code, name in enumerate(NAMES) if not opcodes[code]]
    print(f"  opcodes reached: {83 - len(never)} of 83; never: {' '.join(never)}")
    turned.sort(key=lambda one: len(one[1][0]))
    for (name, index), (words, parameters, _length, _first), got in turned[:10]:
        print(f"turned back: {name}, function {index}: {got[0]} at {got[1]};", end=" ")
        print(f"{parameters} parameters, {len(words)} words")
        for p, word in enumerate(words[:40]):
            print(f"    {p:5} {word:10} {text(word)}")
    sys.exit(bool(turned) or bool(differing) or not counts[0])


if __name__ == "__main__":
    main()
