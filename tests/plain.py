#!/usr/bin/env python3
"""The script program as a plain table, written from document 01 alone.

    tests/plain.py             < RECORDS > LINES
    tests/plain.py answers=2   < RECORDS > LINES     (other room than the script program lends)

The state is 01's plain table: bits by logical row and column, n, index on or off, a mark and a home number for each logical column.
There is nothing to damage here, so refusal 1 does not occur. What is quoted is 01's own words."""
import sys

LIMIT = 65535       # "h and w 0 to 65,535, n at most w, slots 0 to 65,535"

# "One-byte tag, two-byte length", "each place four bytes, SET's v one byte"
KINDS = {
    1: ("MAKE", (4, 4, 4, 4)), 2: ("SET", (4, 4, 1)), 3: ("SWAPR", (4, 4)), 4: ("SWAPC", (4, 4)), 5: ("ADD", (4, 4, 4)),
    6: ("ON", ()), 7: ("OFF", ()), 8: ("FREEZE", (4,)), 9: ("RESIZE", (4, 4)),
    16: ("GET", (4, 4)), 17: ("COUNT", (4, 4, 4)), 18: ("WORDS", (4, 4)), 19: ("TAILONES", (4, 4)),
    20: ("ITER", (4, 4, 4)), 21: ("COLONES", (4, 4, 4)), 22: ("SIZE", ()),
}
TAGS = {name: tag for tag, (name, _) in KINDS.items()}

WHOLE_CASE = ("MAKE 3 4 1 2; SET 0 0 1; SET 0 2 1; SET 1 2 1; SET 2 3 1; SET 0 1 1; ON; COLONES 2 0 3; FREEZE 2; WORDS 0 2; "
              "WORDS 2 2; TAILONES 1 2; COLONES 2 0 3; SET 0 1 1; OFF; ADD 0 2 0; WORDS 0 2; SWAPC 0 1; ITER 0 0 2; "
              "RESIZE 2 2; SIZE; TAILONES 0 2")


class Room:
    """What is lent, by default what the script program lends."""

    def __init__(self, rows=256, columns=256, index_starts=257, slot_entries=8192, tail_words=1024, index_entries=4096,
                 answers=256):
        self.rows = rows                        # row counts, and row maps both ways
        self.columns = columns                  # column maps both ways, and marks
        self.index_starts = index_starts
        self.slot_entries = slot_entries
        self.tail_words = tail_words
        self.index_entries = index_entries
        self.answers = answers


class Refused(Exception):
    def __init__(self, number):
        super().__init__(number)
        self.number = number


def refuse(number, when):
    """Each operation asks in rising order, since "if several apply, the smallest number is given"."""
    if when:
        raise Refused(number)


def words_for(columns):
    """ "A row has ceil(n/64) tail words"."""
    return (columns + 63) // 64


class Table:
    """Every operation answers a list of numbers or raises Refused. All refusals come before the first change: "changes nothing"."""

    def __init__(self, room=None):
        self.room = room or Room()
        self.clear(0, 0, 0, 0)                  # "The program starts with a 0 by 0 store"

    def clear(self, h, w, n, slots):
        self.h, self.w, self.n, self.slots = h, w, n, slots
        self.on = False
        self.bits = [[0] * w for _ in range(h)]
        self.spent = [False] * w                # the marks, by logical column
        self.homes = list(range(w))             # "At making both are equal"

    def sparse(self):
        """The sparse columns are those before the tail: "the last n are the tail, the w-n before it are sparse"."""
        return self.w - self.n

    def ones(self, r):
        """The sparse columns in which row r has a one, by logical number."""
        return [c for c in range(self.sparse()) if self.bits[r][c]]

    def tail_words(self, r):
        """ "Padding is (64 - n mod 64) mod 64; tail column d stands at position padding + d, word position/64, bit position mod 64"."""
        words = [0] * words_for(self.n)
        padding = (64 - self.n % 64) % 64
        for d in range(self.n):
            if self.bits[r][self.sparse() + d]:
                position = padding + d
                words[position // 64] |= 1 << position % 64
        return words

    def listed(self, numbers):
        """ "ANSWER: list longer than its buffer"."""
        refuse(15, len(numbers) > self.room.answers)
        return numbers

    def make(self, h, w, n, slots):
        """ "All zero, homes equal, index off"."""
        refuse(2, h > LIMIT or w > LIMIT or n > w or slots > LIMIT)
        # "lent less than h·slots entries, h row counts, maps and marks for h and w, w+1 index starts, or h·ceil(n/64) tail words"
        room = self.room
        refuse(3, h * slots > room.slot_entries or h > room.rows or w > room.columns or w + 1 > room.index_starts
               or h * words_for(n) > room.tail_words)
        self.clear(h, w, n, slots)
        return []

    def set(self, r, c, v):
        refuse(4, r >= self.h)
        refuse(5, c >= self.w)
        in_sparse = c < self.sparse()
        refuse(9, self.on and in_sparse)
        # "the row afterwards has more sparse ones than slots": only a new sparse one can bring that about
        new = in_sparse and v != 0 and not self.bits[r][c]
        refuse(12, new and len(self.ones(r)) + 1 > self.slots)
        self.bits[r][c] = 1 if v != 0 else 0    # "v is a byte; any but 0 is one"
        return []

    def swapr(self, i, j):
        """ "Rows exchanged; i = j allowed"."""
        refuse(4, i >= self.h or j >= self.h)
        self.bits[i], self.bits[j] = self.bits[j], self.bits[i]
        return []

    def swapc(self, i, j):
        """ "Columns exchanged with marks and homes"."""
        refuse(5, i >= self.w or j >= self.w)
        refuse(6, i >= self.sparse() or j >= self.sparse())
        for by_column in self.bits + [self.spent, self.homes]:
            by_column[i], by_column[j] = by_column[j], by_column[i]
        return []

    def add(self, d, s, start):
        """ "Row d xor row s: start 0 all columns, start w-n tail only"."""
        refuse(4, d >= self.h or s >= self.h)
        refuse(6, start not in (0, self.sparse()))
        refuse(7, d == s)
        single = self.on and start == 0         # 0 decides where it is also w-n: "ADD start 0, index on, n = w: 10"
        if single:
            source = self.ones(s)
            refuse(10, len(source) != 1 or not self.bits[d][source[0]])
        after = self.bits[d][:start] + [a ^ b for a, b in zip(self.bits[d][start:], self.bits[s][start:])]
        refuse(12, sum(after[:self.sparse()]) > self.slots)
        if single:
            self.spent[source[0]] = True        # "the cancelled column's mark becomes spent"
        self.bits[d] = after
        return []

    def turn_on(self):
        """ "Index built anew, all marks exact, also when on"."""
        refuse(14, sum(len(self.ones(r)) for r in range(self.h)) > self.room.index_entries)
        self.on, self.spent = True, [False] * self.w
        return []

    def turn_off(self):
        """ "Index dropped, marks exact, also when off"."""
        self.on, self.spent = False, [False] * self.w
        return []

    def freeze(self, c):
        """ "Column w-n-1 joins the tail, cells kept". The mark may stay: no tail column's mark is ever looked at before ON or OFF."""
        refuse(5, c >= self.w)
        refuse(6, c != self.sparse() - 1)
        refuse(9, not self.on)
        refuse(13, self.h * words_for(self.n + 1) > self.room.tail_words)
        self.n += 1
        return []

    def resize(self, h, w):
        """ "First h rows and w columns stay; n stays if w is equal, else 0". Column homes stay; row homes are not kept in this table."""
        refuse(8, h > self.h or w > self.w or 0 < self.w - w < self.n)
        refuse(9, self.on)
        self.n = self.n if w == self.w else 0
        self.h, self.w = h, w
        self.bits = [row[:w] for row in self.bits[:h]]
        self.spent, self.homes = self.spent[:w], self.homes[:w]
        return []

    def get(self, r, c):
        refuse(4, r >= self.h)
        refuse(5, c >= self.w)
        return [self.bits[r][c]]

    def count(self, r, a, b):
        """ "Ones in sparse columns a to b-1"; "an empty range, also a > b, gives 0 or an empty list"."""
        refuse(4, r >= self.h)
        refuse(6, b > self.sparse())
        return [sum(1 for c in self.ones(r) if a <= c < b)]

    def words(self, r, a):
        """ "The row's tail words", handed back as a part of the lent words, so never 15."""
        refuse(4, r >= self.h)
        refuse(6, a != self.sparse())
        return self.tail_words(r)

    def tailones(self, r, a):
        """ "Tail columns holding one, rising", by logical number; "n = 0: TAILONES 6"."""
        refuse(4, r >= self.h)
        refuse(6, a != self.sparse() or self.n == 0)
        return self.listed([c for c in range(self.sparse(), self.w) if self.bits[r][c]])

    def iter(self, r, a, b):
        """ "Sparse columns a to b-1 holding one, by rising home number"."""
        refuse(4, r >= self.h)
        refuse(6, b > self.sparse())
        return self.listed(sorted((c for c in self.ones(r) if a <= c < b), key=lambda c: self.homes[c]))

    def colones(self, c, a, b):
        """ "Rows a to b-1 holding one, rising"; "b past h in COLONES means h"."""
        refuse(5, c >= self.w)
        refuse(6, c >= self.sparse())
        refuse(9, not self.on)
        refuse(11, self.spent[c])
        return self.listed([r for r in range(a, min(b, self.h)) if self.bits[r][c]])

    def size(self):
        return [self.h, self.w, self.n]

    def operate(self, name, places):
        """One operation: its answer, or Refused."""
        method = {"ON": self.turn_on, "OFF": self.turn_off}.get(name) or getattr(self, name.lower())
        return method(*places)

    def line(self, name, places):
        """ "One line per record, decimal: `ok`, `ok` with numbers, or `no` and the number"."""
        try:
            return " ".join(["ok"] + [str(number) for number in self.operate(name, places)])
        except Refused as refusal:
            return f"no {refusal.number}"


def record(name, *places):
    """The bytes of one operation, "all little-endian"."""
    widths = KINDS[TAGS[name]][1]
    assert len(widths) == len(places)
    payload = b"".join(place.to_bytes(width, "little") for place, width in zip(places, widths))
    return bytes([TAGS[name]]) + len(payload).to_bytes(2, "little") + payload


def records(text):
    """The bytes of operations written as 01 writes them, with `;` between."""
    parts = [part.split() for part in text.split(";")]
    return b"".join(record(words[0], *map(int, words[1:])) for words in parts if words)


def places_of(name, payload):
    """The numbers in a payload of the right length."""
    places, at = [], 0
    for width in KINDS[TAGS[name]][1]:
        places.append(int.from_bytes(payload[at:at + width], "little"))
        at += width
    return places


def run(script, table):
    """The lines of a whole script, one after another: triples of line, operation name (None where there is none) and places."""
    at = 0
    while at < len(script):
        # "Any other record cut short, its tag or length included, gives CUT, which ends it"
        if len(script) - at < 3:
            yield "no 17", None, []
            return
        tag, length = script[at], int.from_bytes(script[at + 1:at + 3], "little")
        end = at + 3 + length
        name, widths = KINDS.get(tag, (None, ()))
        if name is None or length != sum(widths):
            # "After RECORD it skips the payload and goes on"; a payload cut short ends the script "with no further line"
            yield "no 16", None, []
        elif end > len(script):
            yield "no 17", None, []
            return
        else:
            places = places_of(name, script[at + 3:end])
            yield table.line(name, places), name, places
        at = end


def output(script, room=None):
    """What the program writes for a script, from its 0 by 0 store: no header, no footer."""
    return "".join(line + "\n" for line, _, _ in run(script, Table(room)))


if __name__ == "__main__":
    lent = Room(**{name: int(number) for name, number in (word.split("=") for word in sys.argv[1:])})
    sys.stdout.write(output(sys.stdin.buffer.read(), lent))
