#!/usr/bin/env python3
"""One long script for the script program, the same at every run.

    tests/long_script.py          > RECORDS
    tests/long_script.py --seed 7 > RECORDS (other random stretches, for a run beside the plain table)
    tests/long_script.py --tally            (how often each kind was accepted and each refusal given, by the plain table)

It goes through document 01 section by section, each beginning with MAKE, and ends inside a record. The plain table runs beside it, so that
the random stretches can choose what is accepted. Refusals 1, 13 and 15 cannot occur in the script program."""
import itertools
import sys

from plain import KINDS, TAGS, WHOLE_CASE, Refused, Table, record

MOST = 2 ** 32 - 1
NUMBERS = (0, 65535, 65536, MOST)       # "All numbers passed in are 32-bit unsigned" (01); the limits stand at 65,535
BOUNDARY = 4096                         # a program reads in pieces; some record is to stand across each likely end of one

# Which refusals 01's table allows each kind in the script program; --tally says which of them are missing.
POSSIBLE = {"MAKE": (2, 3), "SET": (4, 5, 9, 12), "SWAPR": (4,), "SWAPC": (5, 6), "ADD": (4, 6, 7, 10, 12), "ON": (14,), "OFF": (),
            "FREEZE": (5, 6, 9), "RESIZE": (8, 9), "GET": (4, 5), "COUNT": (4, 6), "WORDS": (4, 6), "TAILONES": (4, 6), "ITER": (4, 6),
            "COLONES": (5, 6, 9, 11), "SIZE": (), "record": (16, 17)}


class Draw:
    """Random numbers of our own (a 64-bit linear congruence), so that the script rests on no version of the language."""

    def __init__(self, seed):
        self.x = seed

    def below(self, k):
        self.x = (self.x * 6364136223846793005 + 1442695040888963407) % 2 ** 64
        return (self.x >> 32) % k

    def of(self, values):
        return values[self.below(len(values))]

    def one_in(self, k):
        return self.below(k) == 0


class Script:
    """The records so far, and the plain table after them."""

    def __init__(self, seed):
        self.out, self.table, self.draw, self.tally = bytearray(), Table(), Draw(seed), {}
        self.straddled = 0

    def count(self, kind, outcome):
        self.tally[kind, outcome] = self.tally.get((kind, outcome), 0) + 1

    def do(self, name, *places):
        """One operation: its answer, or None where it is refused."""
        self.straddle()
        return self.put(name, places)

    def put(self, name, places):
        self.out += record(name, *places)
        try:
            answer = self.table.operate(name, places)
            self.count(name, "ok")
            return answer
        except Refused as refusal:
            self.count(name, refusal.number)
            return None

    def all(self, text):
        """Operations written as 01 writes them, with `;` between."""
        for part in text.split(";"):
            words = part.split()
            if words:
                self.do(words[0], *map(int, words[1:]))

    def bad(self, tag, length):
        """A record that is RECORD. Its payload looks like SIZE records: each that is not skipped would write a line."""
        assert length != (sum(KINDS[tag][1]) if tag in KINDS else -1)
        self.out += bytes([tag]) + length.to_bytes(2, "little") + (record("SIZE") * (length // 3 + 1))[:length]
        self.count("record", 16)

    def straddle(self):
        """Shortly before a multiple of BOUNDARY: fill up, so that the next record has its tag, its length or its payload across it."""
        boundary = (len(self.out) // BOUNDARY + 1) * BOUNDARY
        left = boundary - len(self.out)
        if left < 40 and boundary != self.straddled:
            before = (0, 1, 3, 2, 7)[boundary // BOUNDARY % 5]
            if left >= before + 3:
                self.straddled = boundary
                self.bad(255, left - before - 3)
                self.put("GET", (0, 0))


def show(s):
    """Every query over the whole store: what a refusal must have left as it was."""
    h, a = s.table.h, s.table.sparse()
    s.do("SIZE")
    for r in range(h):
        s.do("ITER", r, 0, a)
        s.do("WORDS", r, a)
        s.do("TAILONES", r, a)
    for c in range(a):
        s.do("COLONES", c, 0, h)


def in_use(s, on):
    """A small store in use: homes moved, a tail, a one cancelled, the index on or off."""
    s.all("MAKE 6 12 3 4; SET 0 0 1; SET 1 0 1; SET 2 0 1; SET 1 5 1; SET 2 8 1; SET 3 8 1; SET 3 7 1; SET 3 2 1; SET 4 4 255; SET 5 1 2;"
          "SET 0 9 1; SET 1 10 1; SET 4 11 128; SET 5 9 1; SET 5 11 1; SWAPC 0 7; SWAPC 5 1; SWAPR 0 4; SWAPR 2 5; ON; ADD 1 4 0")
    if not on:
        s.do("OFF")


def kinds(s):
    """Every kind accepted, and what it did looked at."""
    s.all("MAKE 4 6 2 3; SET 0 0 1; SET 0 1 1; SET 1 1 1; SET 2 3 1; SET 3 0 1; SET 0 4 1; SET 2 5 1; GET 0 0; GET 0 2; GET 2 5; COUNT 0 0 4;"
          "COUNT 0 1 4; ITER 0 0 4; WORDS 0 4; WORDS 2 4; TAILONES 0 4; TAILONES 1 4; SWAPR 0 3; ITER 3 0 4; ITER 0 0 4; SWAPC 0 3; ITER 3 0 4;"
          "ADD 3 1 0; ITER 3 0 4; ADD 3 2 4; TAILONES 3 4; ON; COLONES 3 0 4; COLONES 3 1 4; ADD 3 0 0; COUNT 3 0 4; COLONES 0 0 4; FREEZE 3; SIZE;"
          "TAILONES 0 3; TAILONES 3 3; ON; OFF; OFF; RESIZE 4 6; RESIZE 3 6; SIZE; RESIZE 3 3; SIZE; ITER 2 0 3; WORDS 2 3; RESIZE 0 0; SIZE")
    show(s)


def sizes(s):
    """2 and 3: each limit, each buffer, each just met; 2 before 3. The tail words never run out by themselves: 256 rows of 4 are 1,024."""
    s.all("MAKE 2 2 1 1; MAKE 65536 0 0 0; MAKE 0 65536 0 0; MAKE 0 0 1 0; MAKE 5 5 6 1; MAKE 0 0 0 65536; MAKE 0 65535 65536 0; SIZE;"
          "MAKE 257 1 0 0; MAKE 1 257 0 0; MAKE 256 1 0 33; MAKE 1 1 0 8193; MAKE 2 1 0 4097; MAKE 65535 65535 65535 65535; MAKE 0 257 257 0;"
          "MAKE 257 64 64 0; MAKE 257 257 257 65535; SIZE; MAKE 257 257 258 65536; MAKE 65535 65536 0 0; MAKE 300 1 2 0; SIZE;"
          "MAKE 256 256 256 32; SIZE; MAKE 0 0 0 65535; SIZE; MAKE 1 1 0 8192; SIZE; MAKE 0 256 256 65535; SIZE; MAKE 256 0 0 32; SIZE;"
          "MAKE 256 0 0 0; WORDS 255 0; ADD 0 255 0; ON; ADD 0 255 0; MAKE 0 256 0 0; ON; COLONES 255 0 1; FREEZE 255; SIZE")


def refusals(s):
    """4 to 12: each reason that 01 lists, at the first number that gives it; then two reasons at once."""
    in_use(s, False)        # 6 rows, 9 sparse columns, 3 tail columns, index off
    s.all("SET 6 0 1; SWAPR 6 0; SWAPR 0 6; SWAPR 6 6; ADD 6 0 0; ADD 0 6 0; GET 6 0; COUNT 6 0 1; WORDS 6 9; TAILONES 6 9; ITER 6 0 1;"
          "GET 0 12; SET 0 12 1; SWAPC 12 0; SWAPC 0 12; FREEZE 12; COLONES 12 0 1;"
          "SWAPC 9 0; SWAPC 0 9; SWAPC 9 9; SWAPC 11 8; COLONES 9 0 1; COUNT 0 0 10; ITER 0 0 10; COUNT 0 11 10; ITER 0 11 10; ADD 0 1 1; ADD 0 1 8;"
          "ADD 0 1 10; ADD 0 1 12; WORDS 0 8; WORDS 0 10; WORDS 0 0; TAILONES 0 8; TAILONES 0 10; TAILONES 0 0; FREEZE 7; FREEZE 9; FREEZE 0;"
          "ADD 1 1 0; ADD 1 1 9; RESIZE 7 12; RESIZE 6 13; RESIZE 6 11; RESIZE 6 10; RESIZE 0 11; FREEZE 8; COLONES 0 0 6; COLONES 8 6 0")
    s.all("SET 6 12 1; GET 6 12; ADD 6 6 5; ADD 6 1 5; ADD 1 1 5; COUNT 6 0 13; ITER 6 0 13; WORDS 6 0; TAILONES 6 0; SWAPC 12 9; SWAPC 9 12;"
          "COLONES 12 0 0; COLONES 11 0 0; FREEZE 12; FREEZE 11; RESIZE 7 11")
    show(s)
    in_use(s, True)
    s.all("RESIZE 6 12; RESIZE 5 9; RESIZE 0 0; SET 0 0 1; SET 0 8 0; SET 3 1 0; SET 0 9 0; SET 0 9 1;"
          "ADD 1 3 0; ADD 1 2 0; ADD 0 5 0; ADD 0 1 9; COLONES 7 0 6; COLONES 7 6 6; COLONES 7 9 1; COLONES 7 0 4294967295; SWAPC 7 3; COLONES 7 0 6;"
          "COLONES 3 0 6; SWAPC 3 3; COLONES 3 0 6;"
          "RESIZE 7 12; RESIZE 6 11; SET 6 0 1; SET 0 12 0; ADD 6 3 0; ADD 1 1 0; ADD 3 3 0; ADD 0 3 4; COLONES 9 0 6; COLONES 12 0 6; FREEZE 9")
    show(s)
    # a mark is spent until ON or OFF
    s.all("ON; COLONES 3 0 6; ADD 5 4 0; COLONES 3 0 6; OFF; ON; COLONES 3 0 6")
    # SINGLE: no sparse one, two, row d lacks it, n = w
    s.all("MAKE 4 3 1 2; SET 1 0 1; SET 2 0 1; SET 2 1 1; SET 3 2 1; ON; ADD 1 0 0; ADD 1 3 0; ADD 1 2 0; ADD 0 1 0; ADD 3 1 0; ADD 2 1 0;"
          "ITER 2 0 2; COLONES 0 0 4; COLONES 1 0 4; ADD 1 2 0; SWAPR 1 2; ADD 2 1 0; ADD 0 3 2; GET 0 2; MAKE 2 1 1 1; SET 1 0 1; ON; ADD 0 1 0;"
          "GET 0 0; OFF; ADD 0 1 0; GET 0 0; FREEZE 0; MAKE 2 0 0 0; ON; ADD 0 1 0; ADD 1 1 0; OFF; ADD 0 1 0; FREEZE 0; SWAPC 0 0; GET 0 0")
    # SLOTS looks only at the row that results
    s.all("MAKE 4 6 1 2; SET 0 1 1; SET 0 2 1; SET 0 3 1; SET 0 3 0; SET 0 1 1; SET 0 5 1; SET 1 3 1; SET 2 2 1; SET 2 3 1; SET 3 5 1; SET 1 5 1;"
          "ADD 0 1 0; WORDS 0 5; ITER 0 0 5; ADD 0 1 5; WORDS 0 5; ADD 0 2 0; ITER 0 0 5; SET 0 4 9; SET 0 1 0; SET 0 4 9; ITER 0 0 5;"
          "MAKE 2 2 1 0; SET 0 0 1; SET 0 0 0; SET 0 1 1; ADD 1 0 0; WORDS 1 1; ON; SET 0 0 1; FREEZE 0; SET 0 0 1; WORDS 0 0")
    show(s)


def crowded(s):
    """12 again and again: few slots, and rows that are added to each other."""
    draw = s.draw
    s.do("MAKE", 8, 14, 2, 3)
    for _ in range(150):
        d = draw.below(8)
        if draw.one_in(3):
            s.do("SET", d, draw.below(14), draw.below(5))
        elif s.do("ADD", d, draw.below(8), draw.of((0, 0, 0, 12))) is None:
            s.do("WORDS", d, 12)                                # "Xoring the tail before the room check"
        if draw.one_in(5):
            s.do("ITER", d, 0, 12)
    show(s)


def edges(s):
    """01, "Edges to try" and "Traps for the builder"."""
    s.all("MAKE 1 1 1 0; SET 0 0 1; WORDS 0 0; TAILONES 0 0; MAKE 1 64 64 0; SET 0 0 1; WORDS 0 0; SET 0 63 1; WORDS 0 0; TAILONES 0 0;"
          "MAKE 1 65 65 0; SET 0 0 1; WORDS 0 0; SET 0 64 1; WORDS 0 0; SET 0 1 1; WORDS 0 0; TAILONES 0 0;"
          "MAKE 2 5 0 2; SET 0 1 1; SET 0 2 1; SET 1 1 1; SET 1 4 1; ADD 0 1 0; ITER 0 0 5; ITER 1 0 5; MAKE 2 5 0 1; SET 0 3 1; SET 1 3 1; ADD 0 1 0;"
          "ITER 0 0 5; COUNT 0 0 5; MAKE 3 5 0 2; SET 0 1 1; SET 0 2 1; SET 1 3 1; SET 2 2 1; SET 2 3 1; ADD 0 1 0; ITER 0 0 5; ADD 0 2 0; ITER 0 0 5;"
          "MAKE 1 4 2 0; RESIZE 1 3; RESIZE 1 4; SIZE; RESIZE 1 2; SIZE; MAKE 1 4 2 0; ON; FREEZE 0; FREEZE 1; SIZE; FREEZE 0; SIZE; FREEZE 0;"
          "MAKE 1 2 1 1; ON; SET 0 0 0; SET 0 0 1; SET 0 1 1; MAKE 1 2 0 1; WORDS 0 2; WORDS 0 0; TAILONES 0 2; TAILONES 0 0;"
          "MAKE 0 2 0 0; ON; FREEZE 1; FREEZE 0; SIZE; WORDS 0 0; GET 0 0; SWAPR 0 0; SWAPC 0 0; OFF; RESIZE 0 0; SIZE; ON; OFF")
    # a one that was cancelled is still listed: it must not come back as a tail one
    s.all("MAKE 4 3 1 2; SET 0 1 1; SET 1 1 1; SET 2 1 1; SET 3 0 1; SET 3 1 1; SET 0 2 1; ON; ADD 1 0 0; ADD 3 0 0; COLONES 1 0 4; FREEZE 1; COLONES 1 0 4;"
          "WORDS 0 1; WORDS 1 1; WORDS 2 1; WORDS 3 1; COUNT 3 0 1; COLONES 0 0 9; ON; COLONES 0 0 9; FREEZE 0; TAILONES 3 0")
    # empty ranges, and numbers that are cut to 16 bits by a careless reader
    s.all("MAKE 3 4 1 3; SET 0 0 1; SET 0 2 1; SET 2 0 1; COUNT 0 3 3; COUNT 0 4 3; COUNT 0 65536 3; COUNT 0 4294967295 3; COUNT 0 2 1; ITER 0 3 3;"
          "ITER 0 65536 3; ITER 0 4294967295 3; ITER 0 2 1; ITER 0 0 0; ITER 0 65538 3; GET 65536 0; GET 0 65536; ON; COLONES 0 65536 3;"
          "COLONES 0 0 65536; COLONES 0 0 4294967295; COLONES 0 3 3; COLONES 0 2 1; COLONES 0 2 3; COLONES 0 1 65535; COLONES 65536 0 3")


def hostile_places(s):
    """0, 65,535, 65,536, the largest number, and one that is good, in every place of every kind, together in every way."""
    for on in (False, True):
        for name in POSSIBLE:
            if name in ("MAKE", "record") or not KINDS[TAGS[name]][1]:
                continue
            in_use(s, on)
            places = len(KINDS[TAGS[name]][1])
            for chosen in itertools.product(range(5), repeat=places):
                a = s.table.sparse()
                good = {"SET": (3, a + 1, 1), "SWAPR": (1, 3), "SWAPC": (2, 8), "ADD": (1, 2, a), "FREEZE": (max(a, 1) - 1,),
                        "RESIZE": (5, 9), "GET": (4, 10), "COUNT": (3, 2, a), "WORDS": (5, a), "TAILONES": (5, a), "ITER": (3, 2, a),
                        "COLONES": (8, 1, 5)}[name]
                values = [good[at] if pick == 4 else NUMBERS[pick] for at, pick in enumerate(chosen)]
                if name == "SET":
                    values[2] = (0, 1, 2, 128, 255)[chosen[2]]      # v is one byte
                before = s.table.size()
                s.do(name, *values)
                if name == "RESIZE" and s.table.size() != before:
                    s.do("SIZE")
                    in_use(s, on)
            show(s)
    in_use(s, True)
    for values in itertools.product((0, 65535, 65536, MOST, 2), repeat=4):
        if s.do("MAKE", *values) is not None:
            show(s)
            in_use(s, True)


def hostile_records(s):
    """16: every unknown tag; every known tag with lengths that are not its own. The store stays as it was."""
    in_use(s, True)
    for tag in range(256):
        if tag not in KINDS:
            s.bad(tag, 0)
    for tag in (0, 10, 11, 12, 13, 14, 15, 23, 255):
        for length in (1, 4, 12, 16, 255, 256):
            s.bad(tag, length)
    show(s)
    for tag, (_, widths) in KINDS.items():
        right = sum(widths)
        for length in (right - 1, right + 1, right + 3, 0, right + 256):
            if length >= 0 and length != right:
                s.bad(tag, length)
        s.do("SIZE")
    s.bad(3, 8 * 256)               # the length's two bytes the other way round
    s.bad(8, 4 * 256)
    s.bad(22, 65535)
    show(s)


def refused_make(s):
    """MAKE refused over a store in use "changes nothing, MAKE included" (01)."""
    for on in (True, False):
        in_use(s, on)
        show(s)
        for places in ((65536, 3, 1, 1), (3, 65536, 1, 1), (3, 3, 4, 1), (3, 3, 1, 65536), (257, 3, 1, 1), (3, 257, 1, 1), (256, 3, 1, 33),
                       (0, 65535, 0, 0), (65535, 0, 0, 0), (MOST, MOST, MOST, MOST)):
            s.do("MAKE", *places)
            show(s)
            if not on:
                for v in (1, 0):                                # the slots are those of before: row 0 takes four ones
                    for c in (0, 1, 2, 3, 5, 6, 7, 8):
                        s.do("SET", 0, c, v)


def tails(s):
    """From n to n + 1 over the ends of words: "putting the new zero word on the right, or spacing rows upward so that one overwrites the next"."""
    draw = s.draw
    for h, w, n, freezes in ((5, 70, 62, 5), (1, 70, 64, 2), (4, 3, 0, 3), (3, 140, 126, 4), (7, 200, 190, 4), (5, 256, 253, 3), (256, 67, 63, 3),
                              (256, 256, 191, 3), (256, 256, 254, 2)):
        s.do("MAKE", h, w, n, freezes + 1)
        shown = range(h) if h < 20 else (0, 1, 2, 3, 62, 63, 64, 127, 128, 253, 254, 255)
        for r in shown:
            for _ in range(3):
                s.do("SET", r, draw.below(w), 1)
            s.do("SET", r, w - 1 - draw.below(n or 1), 1)
            s.do("SET", r, w - n - 1 - draw.below(freezes), 1)
        s.do("SET", 0, w - n - 1, 1)
        s.do("SWAPR", 0, h - 1)
        s.do("ON")
        for r in shown:
            s.do("WORDS", r, s.table.sparse())
        for _ in range(freezes):
            s.do("FREEZE", s.table.sparse() - 1)
            for r in shown:
                s.do("WORDS", r, s.table.sparse())
                s.do("TAILONES", r, s.table.sparse())
        s.do("ADD", 0, h - 1, s.table.sparse())
        s.do("TAILONES", 0, s.table.sparse())
        s.do("OFF")
        s.do("RESIZE", h - h // 3, w)
        for r in range(min(3, s.table.h)):
            s.do("WORDS", r, s.table.sparse())


def shrunk(s):
    """After a shrink, home columns up to the width at making remain, and so do rows whose homes were past the height."""
    draw = s.draw
    for h, w, n, small_h, small_w in ((5, 12, 2, 3, 4), (8, 256, 3, 6, 6), (4, 9, 0, 4, 8), (3, 70, 66, 3, 4), (6, 20, 4, 6, 1)):
        s.do("MAKE", h, w, n, 8)
        for c in range(small_w):                                # the columns that stay get the highest homes
            s.do("SWAPC", c, w - n - 1 - c)
        for r in range(h // 2):
            s.do("SWAPR", r, h - 1 - r)
        for r in range(h):
            for _ in range(4):
                s.do("SET", r, draw.below(min(w - n, small_w + 2)), 1)
            s.do("SET", r, draw.below(w), 1)
        for r in range(h):
            s.do("ITER", r, 0, s.table.sparse())
        s.do("RESIZE", small_h, small_w)
        show(s)
        s.all("RESIZE %d %d; RESIZE %d %d; GET 0 %d; SET 0 %d 1" % (small_h + 1, small_w, small_h, small_w + 1, small_w, small_w))
        s.do("SWAPC", small_w, 0)
        s.do("ON")
        show(s)
        s.do("SWAPC", 0, small_w - 1)
        for d in range(small_h):
            for source in range(small_h):
                if d != source and s.table.count(source, 0, s.table.sparse()) == [1]:
                    s.do("ADD", d, source, 0)
        show(s)
        s.do("FREEZE", s.table.sparse() - 1)
        show(s)
        s.do("OFF")
        s.do("RESIZE", small_h, small_w)
        s.do("RESIZE", small_h - 1, s.table.sparse())
        show(s)
        s.all("RESIZE 1 0; SIZE; WORDS 0 0; RESIZE 0 0; RESIZE 0 0; SIZE; RESIZE 0 1")


def sixteen_each(s):
    """256 rows with 16 sparse ones each, copied from row 200: 4,096 in all."""
    for c in range(16):
        s.do("SET", 200, 16 * c + 5, 1)
    for r in range(256):
        if r != 200:
            s.do("ADD", r, 200, 0)


def full(s):
    """Room just filled: 4,096 index entries, one more, 256 answers in each list, and every column frozen one by one."""
    draw = s.draw
    s.do("MAKE", 256, 256, 0, 32)
    sixteen_each(s)
    refused = False
    for _ in range(60):                                         # about 4,096 ones: ON is refused or just not
        if refused != draw.one_in(4):
            s.do("SET", draw.below(256), 16 * draw.below(16) + 5, 0)
        else:
            s.do("SET", draw.below(256), draw.below(256), 1)
        refused = s.do("ON") is None
        if not refused:
            s.do("COLONES", 16 * draw.below(16) + 5, draw.below(256), MOST)
            s.do("OFF")
    s.do("MAKE", 256, 256, 0, 32)
    sixteen_each(s)
    s.all("ON; COLONES 5 0 256; COLONES 245 250 4294967295; COLONES 6 0 256; OFF; SET 255 255 1; ON; COLONES 5 0 1; OFF; ON; SET 255 5 0; ON; ON;"
          "COLONES 255 0 256; COLONES 5 253 256; OFF; SET 0 0 1; SET 0 1 1; ON; RESIZE 255 256; SIZE; ON; COLONES 1 0 256; OFF; RESIZE 250 245; ON; SIZE")
    s.do("MAKE", 17, 256, 0, 256)
    for c in range(256):
        s.do("SET", 3, c, 1)
    for r in range(17):
        if r != 3:
            s.do("ADD", r, 3, 0)
    s.all("ON; SWAPC 0 255; ITER 3 0 256; RESIZE 16 256; ON; COLONES 9 0 99; COUNT 0 0 256; OFF; SET 5 7 0; SET 6 70 0; SET 7 255 0; ON")
    for c in range(255, -1, -1):
        s.do("FREEZE", c)
        if c % 32 == 0 or c in (193, 191, 129, 127, 1):
            s.do("WORDS", 5, c)
            s.do("WORDS", 15, c)
    s.all("TAILONES 4 0; TAILONES 5 0; TAILONES 6 0; WORDS 6 0; WORDS 7 0; ADD 4 5 0; OFF; ADD 4 5 0; TAILONES 4 0; ON; FREEZE 0; SIZE")


def solve(s, h, w, n, slots, degree, looked_at):
    """What a RaptorQ solver asks for: build, choose the row with fewest ones, eliminate, freeze, then work in the tail."""
    draw, t = s.draw, s.table
    s.do("MAKE", h, w, n, slots)
    for r in range(h):
        for _ in range(1 + draw.below(degree)):
            s.do("SET", r, draw.below(w - n), 1)
        for _ in range(draw.below(3) if n else 0):
            s.do("SET", r, w - n + draw.below(n), 1)
    if s.do("ON") is None:
        return
    i = 0
    while i < min(h, t.sparse()):
        best, fewest = None, None
        for _ in range(looked_at):
            r = i + draw.below(h - i)
            found = s.do("COUNT", r, i, t.sparse())[0]
            if found and (best is None or found < fewest):
                best, fewest = r, found
        left = [r for r in range(i, h) if t.ones(r)]
        if best is None and left:
            best = left[0]
        if best is None:
            break
        s.do("SWAPR", i, best)
        s.do("SWAPC", i, s.do("ITER", i, i, t.sparse())[0])
        while len(t.ones(i)) > 1 and t.sparse() > i + 1:        # the row's other ones go to the end and join the tail
            s.do("SWAPC", draw.of(t.ones(i)[1:]), t.sparse() - 1)
            s.do("FREEZE", t.sparse() - 1)
        for r in s.do("COLONES", i, i + 1, h):
            s.do("ADD", r, i, 0)
        if draw.one_in(4):
            s.do("COLONES", i, i + 1, h)                        # spent where there was a row to add to
        i += 1
    s.do("WORDS", 0, t.sparse())
    s.do("OFF")
    # back-substitution in the tail: rows from i on hold tail ones only
    a = t.sparse()
    for step in range(min(t.n, h - i, looked_at)):
        pivot, c = i + step, a + step
        rows = [r for r in range(pivot, h) if t.bits[r][c]]
        if rows:
            s.do("SWAPR", pivot, rows[0])
            for r in range(h):
                if r != pivot and t.bits[r][c] and not draw.one_in(3):
                    s.do("ADD", r, pivot, draw.of((0, a)))
        s.do("TAILONES", pivot, a)
    for _ in range(looked_at):
        r = draw.below(h)
        s.do("ITER", r, 0, a)
        s.do("WORDS", r, a)
    s.do("RESIZE", i, w)
    s.do("RESIZE", i, a)
    s.do("SIZE")
    for r in range(min(i, looked_at)):
        s.do("ITER", r, 0, a)


def wild(s, edge):
    """A number at or past an edge, or a hostile one."""
    return s.draw.of((edge, edge, edge + 1, edge + s.draw.below(300), 65535, 65536, MOST, s.draw.below(2 ** 32)))


def row(s):
    return s.draw.below(s.table.h) if s.table.h and not s.draw.one_in(30) else wild(s, s.table.h)


def column(s, first, end):
    """A column from first to end-1; now and then one after those, or none at all."""
    if first < end and not s.draw.one_in(25):
        return first + s.draw.below(end - first)
    if end < s.table.w and not s.draw.one_in(3):
        return end + s.draw.below(s.table.w - end)
    return wild(s, s.table.w)


def stretch(s):
    """A range over the sparse columns; now and then empty, backwards or past them."""
    a = s.table.sparse()
    first, end = s.draw.below(a + 1), s.draw.below(a + 1)
    if s.draw.one_in(2):
        first, end = 0, a
    if s.draw.one_in(30):
        end = wild(s, a + 1)
    if s.draw.one_in(30):
        first = wild(s, a)
    return (first, end) if s.draw.one_in(8) else (min(first, end), max(first, end))


def single(s):
    """Rows d and s for an ADD from 0 with the index on: s has one sparse one, and d has it too. None where the draw finds none."""
    t = s.table
    for _ in range(40):
        source = s.draw.below(t.h) if t.h else 0
        ones = t.ones(source) if t.h else []
        if len(ones) == 1:
            rows = [d for d in range(t.h) if d != source and t.bits[d][ones[0]]]
            if rows:
                return s.draw.of(rows), source
    return None


WHEN_ON = ("SWAPR SWAPC SWAPC ADD ADD ADD ADD ADD ON OFF FREEZE FREEZE SET SET RESIZE GET COUNT COUNT WORDS WORDS TAILONES TAILONES "
           "ITER ITER ITER COLONES COLONES COLONES COLONES COLONES SIZE").split()
WHEN_OFF = ("SET SET SET SET SET SET SET SET SET SWAPR SWAPC SWAPC ADD ADD ADD ADD ON OFF RESIZE GET COUNT WORDS TAILONES ITER ITER SIZE "
            "FREEZE COLONES").split()


def at_random(s, h, w, n, slots, steps):
    """Random operations over one shape, with something in it to begin with."""
    s.do("MAKE", h, w, n, slots)
    for _ in range((h if h < 40 else 2 * h) if w else 0):
        s.do("SET", s.draw.below(h), s.draw.below(w), 1)
    go_on(s, steps)


def go_on(s, steps):
    """Random operations; most are drawn so that they are accepted."""
    draw, t = s.draw, s.table
    for _ in range(steps):
        a = t.sparse()
        name = draw.of(WHEN_ON if t.on else WHEN_OFF)
        if name == "SET":
            c = column(s, a, t.w) if t.on and t.n and not draw.one_in(8) else column(s, 0, t.w)
            s.do(name, row(s), c, draw.of((0, 1, 1, 1, 255, draw.below(256))))
        elif name == "SWAPR":
            s.do(name, row(s), row(s))
        elif name == "SWAPC":
            s.do(name, column(s, 0, a), column(s, 0, a))
        elif name == "ADD":
            pair = single(s) if t.on and not draw.one_in(4) else None
            if pair:
                s.do(name, *pair, 0)
            else:
                start = a if t.on and not draw.one_in(8) else draw.of((0, 0, 0, a))
                s.do(name, row(s), row(s), wild(s, a + 1) if draw.one_in(20) else start)
        elif name == "FREEZE":
            if t.on or draw.one_in(4):
                s.do(name, a - 1 if a and not draw.one_in(8) else column(s, 0, t.w))
        elif name == "RESIZE":
            if t.on and not draw.one_in(3):
                continue
            kept = draw.of((t.w, t.w, a, a - min(a, draw.below(3)), t.w - min(t.w, 1)))
            places = (t.h - min(t.h, draw.below(2)), kept)
            if draw.one_in(5):
                places = draw.of(((wild(s, t.h + 1), kept), (t.h, wild(s, t.w + 1))))
            s.do(name, *places)
        elif name == "GET":
            s.do(name, row(s), column(s, 0, t.w))
        elif name in ("COUNT", "ITER"):
            s.do(name, row(s), *stretch(s))
        elif name in ("WORDS", "TAILONES"):
            s.do(name, row(s), a if not draw.one_in(12) else draw.of((0, a + 1, t.w, wild(s, a))))
        elif name == "COLONES":
            if t.on or draw.one_in(4):
                first, end = draw.below(t.h + 1), draw.below(t.h + 1)
                first, end = (0, t.h) if draw.one_in(2) else (min(first, end), max(first, end))
                exact = [c for c in range(a) if not t.spent[c]]
                c = draw.of(exact) if exact and not draw.one_in(4) else column(s, 0, a)
                s.do(name, c, first if not draw.one_in(20) else wild(s, t.h), end if not draw.one_in(10) else wild(s, t.h))
        else:
            s.do(name)
        if draw.one_in(60):
            s.do("MAKE", *draw.of(((t.h, t.w, t.w + 1, 1), (65536, 1, 0, 0), (257, t.w, t.n, 0), (t.h, 257, 0, 0), (256, 0, 0, 33 + draw.below(99)))))


def whole(seed=1101):
    """The whole script; its very last record is cut short."""
    s = Script(seed)
    s.all(WHOLE_CASE)
    for section in (kinds, sizes, refusals, crowded, edges, hostile_places, hostile_records, refused_make, tails, shrunk, full):
        section(s)
    for h, w, n, slots, degree, looked_at in ((6, 8, 2, 6, 3, 3), (12, 14, 3, 10, 4, 4), (20, 24, 4, 12, 4, 5), (40, 44, 6, 20, 4, 5),
                                              (30, 90, 62, 20, 3, 5), (1, 1, 0, 1, 1, 1), (200, 210, 10, 40, 3, 3)):
        solve(s, h, w, n, slots, degree, looked_at)
    s.bad(0, 65535)
    for turn in range(90):
        draw = s.draw
        w = draw.below(12) + (60 if draw.one_in(4) else 0)
        n = draw.below(w + 1) if draw.one_in(2) else w - min(w, 2 + draw.below(8))
        at_random(s, draw.below(10), w, n, draw.below(7), 50)
        if turn % 45 == 20:
            s.bad(draw.of((1, 2, 9, 21)), 65535)
    for h, w, n, slots, steps in ((256, 256, 3, 32, 700), (256, 256, 190, 32, 500), (250, 256, 0, 5, 500), (64, 256, 120, 128, 500)):
        at_random(s, h, w, n, slots, steps)
    s.bad(255, 65535)
    s.all("SIZE; GET 0 0")
    s.out += record("MAKE", 1, 1, 1, 1)[:5]
    s.count("record", 17)
    return s


def report(s):
    numbers = [2, 3, 4, 5, 6, 7, 8, 9, 10, 11, 12, 14, 16, 17]
    print(f"{len(s.out)} bytes, {sum(s.tally.values())} records")
    print("          " + "".join(f"{head:>6}" for head in ["ok"] + numbers))
    for kind in POSSIBLE:
        print(f"{kind:10}" + "".join(f"{s.tally.get((kind, column), ''):>6}" for column in ["ok"] + numbers))
    sums = {column: sum(times for (_, outcome), times in s.tally.items() if outcome == column) for column in ["ok"] + numbers}
    print("all       " + "".join(f"{sums[column]:>6}" for column in ["ok"] + numbers))
    wanted = [(kind, number) for kind, allowed in POSSIBLE.items() for number in allowed]
    wanted += [(kind, "ok") for kind in POSSIBLE if kind != "record"]
    missing = [pair for pair in wanted if pair not in s.tally]
    unforeseen = [pair for pair in s.tally if pair not in wanted]
    print(f"missing: {missing or 'none'}; not allowed by 01: {unforeseen or 'none'}")


if __name__ == "__main__":
    if sys.argv[1:] == ["--tally"]:
        report(whole())
    elif not sys.argv[1:]:
        sys.stdout.buffer.write(whole().out)
    elif len(sys.argv) == 3 and sys.argv[1] == "--seed":
        sys.stdout.buffer.write(whole(int(sys.argv[2])).out)
    else:
        sys.exit(__doc__)
