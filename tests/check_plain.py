#!/usr/bin/env python3
"""Checks the plain table: 01's whole case, 01's edges, each refusal with each of its reasons, and the table against itself.

    tests/check_plain.py

The lines expected here were worked out by hand from 01."""
import os
import re
import sys

from long_script import Draw
from plain import TAGS, WHOLE_CASE, Refused, Room, Table, output, record, records

WHOLE_LINES = ("ok|ok|ok|ok|ok|no 12|ok|ok 0 1|ok|ok 4611686018427387904|ok 9223372036854775808|ok 2|no 6|no 9|ok|ok|"
               "ok 13835058055282163712|ok|ok 1|ok|ok 2 2 0|no 6")

TOP = str(2 ** 63)
MOST = str(2 ** 32 - 1)

# Each case: what it shows, the script, the lines.
CASES = [
    # 01, "Edges to try"
    ("n = 1: padding 63", "MAKE 1 1 1 0; SET 0 0 1; WORDS 0 0", f"ok|ok|ok {TOP}"),
    ("n = 64: padding 0, one word", "MAKE 1 64 64 0; SET 0 0 1; WORDS 0 0; SET 0 63 1; WORDS 0 0",
     f"ok|ok|ok 1|ok|ok {2 ** 63 + 1}"),
    ("n = 65: two words, first column word 0 bit 63, last word 1 bit 63",
     "MAKE 1 65 65 0; SET 0 0 1; WORDS 0 0; SET 0 0 0; SET 0 64 1; WORDS 0 0; SET 0 64 0; SET 0 1 1; WORDS 0 0",
     f"ok|ok|ok {TOP} 0|ok|ok|ok 0 {TOP}|ok|ok|ok 0 1"),
    ("row {1,2} plus {1,4} is {2,4}", "MAKE 2 5 0 2; SET 0 1 1; SET 0 2 1; SET 1 1 1; SET 1 4 1; ADD 0 1 0; ITER 0 0 5",
     "ok|ok|ok|ok|ok|ok|ok 2 4"),
    ("{3} plus {3} is empty", "MAKE 2 5 0 1; SET 0 3 1; SET 1 3 1; ADD 0 1 0; ITER 0 0 5; COUNT 0 0 5",
     "ok|ok|ok|ok|ok|ok 0"),
    ("slots 2: {1,2} plus {3} is 12, plus {2,3} is {1,3}",
     "MAKE 3 5 0 2; SET 0 1 1; SET 0 2 1; SET 1 3 1; SET 2 2 1; SET 2 3 1; ADD 0 1 0; ITER 0 0 5; ADD 0 2 0; ITER 0 0 5",
     "ok|ok|ok|ok|ok|ok|no 12|ok 1 2|ok|ok 1 3"),
    ("w = 4, n = 2: 3 wide is 8, 4 wide keeps n, 2 wide drops it",
     "MAKE 1 4 2 0; RESIZE 1 3; RESIZE 1 4; SIZE; RESIZE 1 2; SIZE", "ok|no 8|ok|ok 1 4 2|ok|ok 1 2 0"),
    ("w = 4, n = 2: FREEZE 0 is 6, FREEZE 1 accepted with index on",
     "MAKE 1 4 2 0; FREEZE 1; FREEZE 0; ON; FREEZE 0; FREEZE 1; SIZE; FREEZE 0; SIZE; FREEZE 0",
     "ok|no 9|no 6|ok|no 6|ok|ok 1 4 3|ok|ok 1 4 4|no 6"),
    ("SET of zero in a sparse column, index on: 9", "MAKE 1 2 1 1; ON; SET 0 0 0; SET 0 0 1; SET 0 1 1", "ok|ok|no 9|no 9|ok"),
    ("ADD start 0, index on, n = w: 10; index off it is the tail",
     "MAKE 2 1 1 0; SET 1 0 1; ON; ADD 0 1 0; GET 0 0; OFF; ADD 0 1 0; GET 0 0", "ok|ok|ok|no 10|ok 0|ok|ok|ok 1"),
    ("n = 0: WORDS empty, TAILONES 6", "MAKE 1 2 0 1; WORDS 0 2; WORDS 0 0; TAILONES 0 2; TAILONES 0 0; MAKE 1 0 0 0; WORDS 0 0",
     "ok|ok|no 6|no 6|no 6|ok|ok"),
    ("h = 0: FREEZE accepted", "MAKE 0 2 0 0; ON; FREEZE 1; FREEZE 0; SIZE; FREEZE 0", "ok|ok|ok|ok|ok 0 2 2|no 6"),
    # 01, "Traps for the builder"
    ("after a shrink, home columns up to the old width remain",
     "MAKE 2 6 0 4; SWAPC 0 5; SWAPC 1 4; SET 0 0 1; SET 0 1 1; RESIZE 2 2; ITER 0 0 2; ON; COLONES 0 0 2; COLONES 1 0 2",
     "ok|ok|ok|ok|ok|ok|ok 1 0|ok|ok 0|ok 0"),
    ("a cancelled one is still listed, and is not frozen",
     "MAKE 3 2 0 2; SET 0 1 1; SET 1 1 1; SET 2 1 1; ON; ADD 1 0 0; COLONES 1 0 3; FREEZE 1; "
     "WORDS 0 1; WORDS 1 1; WORDS 2 1; COUNT 1 0 1",
     f"ok|ok|ok|ok|ok|ok|no 11|ok|ok {TOP}|ok 0|ok {TOP}|ok 0"),
    ("a refused ADD leaves the tail", "MAKE 2 3 1 1; SET 0 0 1; SET 1 1 1; SET 1 2 1; ADD 0 1 0; WORDS 0 2; ITER 0 0 2",
     "ok|ok|ok|ok|no 12|ok 0|ok 0"),
    ("64 to 65: the new word stands before the old one",
     "MAKE 2 65 64 1; SET 0 1 1; SET 1 64 1; SET 1 0 1; ON; FREEZE 0; WORDS 0 0; WORDS 1 0; TAILONES 1 0",
     f"ok|ok|ok|ok|ok|ok|ok 0 1|ok {TOP} {TOP}|ok 0 64"),
    ("ITER is sorted by home number", "MAKE 1 3 0 3; SET 0 0 1; SET 0 1 1; SET 0 2 1; SWAPC 0 2; ITER 0 0 3; ITER 0 0 2; ITER 0 1 3",
     "ok|ok|ok|ok|ok|ok 2 1 0|ok 1 0|ok 2 1"),
    # 2 and 3: each limit, each buffer
    ("MAKE outside the limits", "MAKE 65536 0 0 0; MAKE 0 65536 0 0; MAKE 0 0 1 0; MAKE 1 2 3 0; MAKE 0 0 0 65536; MAKE 0 0 0 65535; SIZE",
     "no 2|no 2|no 2|no 2|no 2|ok|ok 0 0 0"),
    ("MAKE lent too little", "MAKE 256 256 256 32; MAKE 257 0 0 0; MAKE 0 257 0 0; MAKE 256 0 0 33; MAKE 1 1 1 8193; MAKE 1 1 1 8192; SIZE",
     "ok|no 3|no 3|no 3|no 3|ok|ok 1 1 1"),
    ("2 before 3; a refused MAKE changes nothing", "MAKE 1 2 1 1; SET 0 0 1; ON; MAKE 257 1 2 0; MAKE 0 257 0 0; SIZE; COLONES 0 0 1",
     "ok|ok|ok|no 2|no 3|ok 1 2 1|ok 0"),
    # 4 to 6
    ("rows at h", "MAKE 2 2 1 1; SET 2 0 1; SWAPR 2 0; SWAPR 0 2; ADD 2 0 0; ADD 0 2 0; GET 2 0; COUNT 2 0 0; WORDS 2 1; TAILONES 2 1; ITER 2 0 0",
     "ok" + "|no 4" * 10),
    ("COLONES' a and b are never 4", f"MAKE 2 2 1 1; SET 1 0 1; ON; COLONES 0 9 {MOST}; COLONES 0 1 {MOST}; COLONES 0 2 1; COLONES 0 0 1",
     "ok|ok|ok|ok|ok 1|ok|ok"),
    ("columns at w", "MAKE 2 2 1 1; GET 0 2; SET 0 2 1; SWAPC 2 0; SWAPC 0 2; FREEZE 2; COLONES 2 0 1", "ok" + "|no 5" * 6),
    ("sides", "MAKE 2 3 1 1; SWAPC 2 0; SWAPC 0 2; SWAPC 2 2; COLONES 2 0 1; COUNT 0 0 3; ITER 0 0 3; COUNT 0 5 3; ITER 0 5 3; "
     "ADD 0 1 1; ADD 0 1 3; WORDS 0 0; WORDS 0 3; TAILONES 0 0; TAILONES 0 3; FREEZE 0; FREEZE 2", "ok" + "|no 6" * 16),
    ("empty ranges", f"MAKE 1 2 0 1; SET 0 1 1; COUNT 0 2 2; COUNT 0 {MOST} 2; ITER 0 2 1; ITER 0 65536 2; COUNT 0 0 2; ON; COLONES 1 1 1",
     "ok|ok|ok 0|ok 0|ok|ok|ok 1|ok|ok"),
    # 7 to 12
    ("same", "MAKE 2 2 1 1; ADD 1 1 0; ADD 1 1 1; ADD 1 1 2; ADD 2 2 2", "ok|no 7|no 7|no 6|no 4"),
    ("shrink", "MAKE 2 4 2 1; RESIZE 3 4; RESIZE 2 5; RESIZE 2 3; ON; RESIZE 3 4; RESIZE 2 3; RESIZE 2 2; RESIZE 2 4; OFF; RESIZE 1 1; SIZE",
     "ok|no 8|no 8|no 8|ok|no 8|no 8|no 9|no 9|ok|ok|ok 1 1 0"),
    ("phase", "MAKE 1 2 1 0; FREEZE 0; COLONES 0 0 1; ON; SET 0 0 1; SET 0 1 1; COLONES 0 0 1; OFF; SET 0 0 1", "ok|no 9|no 9|ok|no 9|ok|ok|ok|no 12"),
    ("single: none, two, row d lacks it",
     "MAKE 4 4 1 2; SET 1 0 1; SET 2 0 1; SET 2 1 1; ON; ADD 1 0 0; ADD 1 2 0; ADD 0 1 0; ADD 2 1 0; ITER 2 0 3; COLONES 0 0 4; COLONES 1 0 4; ADD 0 1 3",
     "ok|ok|ok|ok|ok|no 10|no 10|no 10|ok|ok 1|no 11|ok 2|ok"),
    ("spent travels with SWAPC, and ON or OFF ends it; it comes before an empty range",
     "MAKE 2 3 0 2; SET 0 0 1; SET 1 0 1; ON; ADD 0 1 0; SWAPC 0 2; COLONES 2 0 2; COLONES 2 1 1; COLONES 0 0 2; ON; COLONES 2 0 2; OFF; COLONES 2 0 2",
     "ok|ok|ok|ok|ok|ok|no 11|no 11|ok|ok|ok 1|ok|no 9"),
    ("slots: one that is there, a zero, and the tail are never 12",
     "MAKE 2 4 1 1; SET 0 0 7; SET 0 1 255; SET 0 0 1; SET 0 1 0; SET 0 3 1; GET 0 3; SET 0 3 0; GET 0 3; SET 1 1 1; ADD 0 1 3; ADD 0 1 0",
     "ok|ok|no 12|ok|ok|ok|ok 1|ok|ok 0|ok|ok|no 12"),
    ("swaps with themselves, ADD at the tail start with no tail",
     "MAKE 2 2 0 1; SET 1 1 1; SWAPR 1 1; SWAPC 1 1; ADD 0 1 2; ITER 0 0 2; ITER 1 0 2; ON; ADD 0 1 2; ON; OFF; OFF",
     "ok|ok|ok|ok|ok|ok|ok 1|ok|ok|ok|ok|ok"),
]

# Room that the script program never lacks: 13, 15 and words freed by RESIZE; also each buffer of MAKE by itself.
ROOM_CASES = [
    ("13, and words freed by RESIZE serve a later FREEZE", Room(tail_words=3),
     "MAKE 2 66 64 1; ON; FREEZE 1; OFF; RESIZE 1 66; ON; FREEZE 1; SIZE; FREEZE 0; FREEZE 0", "ok|ok|no 13|ok|ok|ok|ok|ok 1 66 65|ok|no 6"),
    ("15", Room(answers=1),
     "MAKE 2 4 2 2; SET 0 0 1; SET 0 1 1; SET 1 0 1; SET 0 2 1; SET 0 3 1; ITER 0 0 2; ITER 0 1 2; TAILONES 0 2; ON; "
     "COLONES 0 0 2; COLONES 0 0 1; COUNT 0 0 2; WORDS 0 2",
     f"ok|ok|ok|ok|ok|ok|no 15|ok 1|no 15|ok|no 15|ok 0|ok 2|ok {2 ** 63 + 2 ** 62}"),
    ("14, and a later ON", Room(index_entries=1), "MAKE 2 2 0 2; SET 0 0 1; SET 1 1 1; ON; COLONES 0 0 2; SET 1 1 0; ON; ON; COLONES 0 0 2",
     "ok|ok|ok|no 14|no 9|ok|ok|ok|ok 0"),
    ("no index entries lent", Room(index_entries=0), "MAKE 1 1 0 1; ON; OFF; SET 0 0 1; ON", "ok|ok|ok|ok|no 14"),
    ("slot entries", Room(slot_entries=5), "MAKE 2 0 0 3; MAKE 2 0 0 2", "no 3|ok"),
    ("rows", Room(rows=1), "MAKE 2 0 0 0; MAKE 1 0 0 0", "no 3|ok"),
    ("columns", Room(columns=1), "MAKE 0 2 0 0; MAKE 0 1 0 0", "no 3|ok"),
    ("index starts", Room(index_starts=1), "MAKE 0 1 0 0; MAKE 0 0 0 0", "no 3|ok"),
    ("no index start at all", Room(index_starts=0), "MAKE 0 0 0 0", "no 3"),
    ("tail words", Room(tail_words=1), "MAKE 1 65 65 0; MAKE 2 1 1 0; MAKE 1 64 64 0", "no 3|no 3|ok"),
]

# Records as bytes: RECORD and CUT.
BYTE_CASES = [
    ("an empty script writes nothing", b"", ""),
    ("a tag alone, or half a length, is CUT whatever the tag", b"\xff", "no 17"),
    ("the same with two bytes", b"\xff\x00", "no 17"),
    ("an unknown tag with no payload", b"\xff\x00\x00", "no 16"),
    ("an unknown tag whose payload is cut short: no further line", b"\xff\x05\x00ab", "no 16"),
    ("a wrong length whose payload is cut short", b"\x16\x01\x00", "no 16"),
    ("a right length whose payload is cut short", b"\x08\x04\x00\x00\x00\x00", "no 17"),
    ("the payload is skipped", b"\x16\x03\x00\x16\x00\x00" + record("SIZE"), "no 16|ok 0 0 0"),
    ("both bytes of the length count", b"\x16\x00\x01" + bytes(256) + record("SIZE"), "no 16|ok 0 0 0"),
] + [(f"every unknown tag: {tag}", bytes([tag, 0, 0]) + record("SIZE"), "no 16|ok 0 0 0")
     for tag in range(256) if tag not in TAGS.values()]


def example(name):
    """An example's records, and the lines that its comments promise: `# ok 4: why` or `# no 6`; `ok` where nothing is promised."""
    script, lines = b"", []
    with open(os.path.join(os.path.dirname(os.path.abspath(__file__)), "..", "examples", name)) as text:
        for line in text:
            said, _, comment = line.partition("#")
            if said.split():
                script += records(said)
                promised = re.match(r"(ok|no)(?: \d+)*(?=:|$)", comment.strip())
                lines.append(promised.group() if promised else "ok")
    return script, "|".join(lines)


def state(table):
    return (table.h, table.w, table.n, table.slots, table.on, [row[:] for row in table.bits], table.spent[:], table.homes[:])


def agree(table):
    """All queries tell of the same bits."""
    a = table.sparse()
    for r in range(table.h):
        bits = [table.get(r, c)[0] for c in range(table.w)]
        assert bits == table.bits[r]
        assert table.count(r, 0, a) == [sum(bits[:a])] and sum(bits[:a]) <= table.slots
        found = table.iter(r, 0, a)
        assert sorted(found) == [c for c in range(a) if bits[c]]
        assert [table.homes[c] for c in found] == sorted(table.homes[c] for c in found)
        words = table.words(r, a)
        assert len(words) == -(-table.n // 64)
        joined = sum(word << 64 * at for at, word in enumerate(words))
        padding = 64 * len(words) - table.n
        assert [joined >> padding + d & 1 for d in range(table.n)] == bits[a:] and joined & (1 << padding) - 1 == 0
        if table.n:
            assert table.tailones(r, a) == [c for c in range(a, table.w) if bits[c]]
    assert sorted(set(table.homes)) == sorted(table.homes)
    for c in range(a):
        if table.on and not table.spent[c]:
            assert table.colones(c, 0, 2 ** 32 - 1) == [r for r in range(table.h) if table.bits[r][c]]


def fuzz(steps):
    """Random operations: undone where they can be undone, and checked for what 01 says must stay."""
    draw, table, taken, listed = Draw(6330), Table(), {}, {}
    rows = []                                   # which row of the making stands at each logical number
    for step in range(steps):
        h, w, n, a = table.h, table.w, table.n, table.sparse()
        if step % 60 == 0:
            w = draw.below(8) + (62 if draw.below(3) == 0 else 0)
            h, n = draw.below(8), draw.below(w + 1) if draw.below(2) else w - min(w, 6)
            name, places = "MAKE", [h, w, n, draw.below(6)]
        else:
            name = draw.of("SET SET SET SET SET SET SWAPR SWAPC ADD ADD ADD ADD ADD ADD ON OFF FREEZE".split() + ["RESIZE"] * draw.one_in(4))
            r, other = (draw.below(h + draw.one_in(9) or 1) for _ in range(2))
            places = {"SET": [r, draw.below(w + 1), draw.below(3)], "SWAPR": [r, other],
                      "SWAPC": [draw.below(a + 1), draw.below(a + 1)], "ADD": [r, other, draw.of([0, 0, a, 1])],
                      "ON": [], "OFF": [], "FREEZE": [draw.of([a - 1 if a else 0, 0])],
                      "RESIZE": [h - min(h, draw.below(2)), draw.of([w, w, w - n, w - min(w, draw.below(3))])]}[name]
        before = state(table)
        try:
            table.operate(name, places)
        except Refused as refusal:
            taken[refusal.number] = taken.get(refusal.number, 0) + 1
            assert state(table) == before, "a refusal changes nothing"
            continue
        taken[name] = taken.get(name, 0) + 1
        after = state(table)
        agree(table)
        if name == "MAKE":
            rows = list(range(table.h))
        elif name in ("SWAPR", "SWAPC"):
            table.operate(name, places)
            assert state(table) == before, "a swap twice is none"
            table.operate(name, places)
            if name == "SWAPR":
                i, j = places
                rows[i], rows[j] = rows[j], rows[i]
        elif name == "ADD":
            d, s, start = places
            assert after[5][:d] == before[5][:d] and after[5][d + 1:] == before[5][d + 1:]
            if not (table.on and start == 0):
                table.operate(name, places)
                assert state(table) == before, "a row added twice restores"
                table.operate(name, places)
            else:
                assert sum(after[5][d][:a]) == sum(before[5][d][:a]) - 1, "one sparse one is cancelled"
        elif name == "FREEZE":
            assert after[5] == before[5] and table.n == n + 1, "cells kept"
        elif name == "RESIZE":
            assert after[5] == [row[:table.w] for row in before[5][:table.h]], "what stays keeps its bits"
            assert table.n == (n if table.w == w else 0) and table.homes == before[7][:table.w]
            rows = rows[:table.h]
        elif name in ("ON", "OFF"):
            assert after[5] == before[5] and not any(table.spent)
        # an index built at ON, by home column, is still right for every exact column and still names every one of a spent one
        if name == "ON":
            listed = {table.homes[c]: {rows[r] for r in range(table.h) if table.bits[r][c]} for c in range(table.sparse())}
        if table.on:
            for c in range(table.sparse()):
                here = {rows[r] for r in range(table.h) if table.bits[r][c]}
                assert here == listed[table.homes[c]] if not table.spent[c] else here < listed[table.homes[c]]
    return taken


def main():
    failed = 0
    cases = [("01's whole case", None, records(WHOLE_CASE), WHOLE_LINES)]
    cases += [(what, None, records(text), lines) for what, text, lines in CASES]
    cases += [(what, room, records(text), lines) for what, room, text, lines in ROOM_CASES]
    cases += [(what, None, script, lines) for what, script, lines in BYTE_CASES]
    cases += [(name, None, *example(name)) for name in ("whole_case.txt", "elimination.txt")]
    for what, room, script, lines in cases:
        expected = "".join(line + "\n" for line in lines.split("|") if line)
        got = output(script, room)
        if got != expected:
            failed += 1
            print(f"{what}\n  expected {expected.split(chr(10))}\n  got      {got.split(chr(10))}")
    taken = fuzz(40000)
    print(f"{len(cases)} cases, {failed} failed; the table against itself: {dict(sorted(taken.items(), key=str))}")
    sys.exit(1 if failed else 0)


if __name__ == "__main__":
    main()
