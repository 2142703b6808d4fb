#!/usr/bin/env python3
"""What crates/script_try has to write: 01's whole case run by the library's run, from a fresh 0 by 0 store each time.

    tests/cuts.py --script > crates/script_try/stdin
    tests/cuts.py          > crates/script_try/stdout

First the script cut at every byte: `bytes K`, the lines for its first K bytes, and `done`, how many record bytes are done and how many line bytes are
written. So each "record cut short, its tag or length included, gives CUT" (01) is seen, and no other cut gives it.
Then the whole script with room for K line bytes, for every K to 256: `room K`, the lines that fit, and `done` again. "It stops before the first record
whose line would not fit whole, that record leaving no trace, and answers how many record bytes are done" (01)."""
import sys

from plain import Room, Table, WHOLE_CASE, output, record, records

LITTLE = dict(rows=3, columns=4, index_starts=5, slot_entries=6, tail_words=3, index_entries=6, answers=3)
ROOM_FOR_LINES = 256


def cut(script, k):
    lines = output(script[:k], Room(**LITTLE))
    return f"bytes {k}\n{lines}done {k} {len(lines)}\n"


def stopped(k):
    """The operations in their order, as long as their lines fit in k bytes together."""
    table, done, lines = Table(Room(**LITTLE)), 0, ""
    for words in (part.split() for part in WHOLE_CASE.split(";")):
        name, places = words[0], [int(word) for word in words[1:]]
        line = table.line(name, places) + "\n"
        if len(lines) + len(line) > k:
            break
        lines += line
        done += len(record(name, *places))
    return f"room {k}\n{lines}done {done} {len(lines)}\n"


if __name__ == "__main__":
    script = records(WHOLE_CASE)
    if sys.argv[1:] == ["--script"]:
        sys.stdout.buffer.write(script)
    else:
        sys.stdout.write("".join(cut(script, k) for k in range(len(script) + 1)))
        sys.stdout.write("".join(stopped(k) for k in range(ROOM_FOR_LINES + 1)))
