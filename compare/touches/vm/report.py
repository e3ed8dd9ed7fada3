"""report.py READINGS FILE: adds up what observe.c wrote for each script; the reading of that folder names the opcodes."""
import sys
from collections import Counter

sys.path += [sys.argv[1], __file__.rsplit("/", 2)[0]]
from reading import NAMES

total, rows = Counter(), {}
for line in open(sys.argv[2], encoding="utf-8"):
    what, *rest = line.split()
    if what == "words":
        fields = dict(zip([what] + rest[1::2], map(int, rest[::2])))
        total.update(fields)
    else:
        opcode = int(rest[0])
        rows.setdefault(opcode, Counter()).update(dict(zip(rest[1::2], map(int, rest[2::2]))))
print(
    f"all scripts: {total['words']} words of functions, run {total['run']} times; {total['accesses']} accesses, all listed"
    f" but {total['extra']} copies and temporaries of words that go by a formula or are left out;"
    f" of {total['places']} places listed for those words {total['seen']} were seen, all of them for {total['whole']} words"
)
for opcode in sorted(rows):
    r = rows[opcode]
    if r["seen"] < r["places"]:
        print(
            f"  {NAMES[opcode]:10} {r['words']} words, {r['places']} places, {r['seen']} seen;"
            f" {r['whole']} words with all"
        )
full = [NAMES[o] for o in sorted(rows) if rows[o]["whole"]]
without = " ".join(name for name in NAMES if name not in full)
print(f"opcodes with a word of which every listed place was seen: {len(full)}; without: {without}")
