#!/usr/bin/env python3
"""Writes the script of calls (tests/sessions.script) on standard output.

Only bytes and lines are put together here; no answer is worked out.
Every part says what it tests and why document 01 ("01") gives the answer.
"""
import struct

LINES = []
F, W, L = 0, 1, 2


def say(*texts):
    for text in texts:
        LINES.append("# " + text)


def part(title):
    LINES.append("")
    LINES.append("# ==== " + title)


def do(*lines):
    LINES.extend(lines)


def table(data):
    do("table " + (data.hex() or "-"))


def row(*words):
    do(" ".join(["row"] + ["%08x" % (w & 0xFFFFFFFF) for w in words]))


# ---- bytes of a table

def now(v):
    return bytes([0x13, v])


def at(v, k, default=0):
    return struct.pack("<BBbI", 0x14, v, k, default)


def flag(x):
    return bytes([0x10, x])


def word(x):
    return struct.pack("<BI", 0x11, x)


def level(x):
    return struct.pack("<BI", 0x12, x)


def op(kind, *operands):
    return bytes([kind]) + b"".join(operands)


def make(inputs, outputs):
    """inputs: types; outputs: (type, role, expression)."""
    data = bytes([1, 1, len(inputs), len(outputs)])
    data += b"".join(bytes([2, kind]) for kind in inputs)
    data += b"".join(bytes([3, kind, role]) for kind, role, _ in outputs)
    for i, (_, _, expression) in enumerate(outputs):
        data += bytes([4, len(inputs) + i]) + expression
    return data


def added(parts):
    """A balanced tree of word adds."""
    if len(parts) == 1:
        return parts[0]
    half = len(parts) // 2
    return op(0x24, added(parts[:half]), added(parts[half:]))


def nots(n, inner):
    return bytes([0x20]) * n + inner


A = bytes.fromhex("010101020201030100030001" "0401251300" "1400ff00000000"
                  "0402261300" "14000107000000")
assert len(A) == 36


def start(data, words, room):
    """The usual beginning: table, a store with 3 words over, the room, open."""
    table(data)
    do("store %d" % words, "out %d" % room, "open")


def part_start():
    part("Before any line: the empty table, the all-zero record")
    say("01: every call tests the table first; length 0 is refusal 1 at 0. Each call hands",
        "back the record it got (open: the all-zero one, the same here).")
    do("open", "row", "row 00000001", "close", "drain 1")


def part_examples():
    part("Table A with no rows, then closing")
    say("01: look-ahead 0, 0, 1 (checksum 3), kept 2, 1, 1 (2 + 2 + 3 = 7), 4 words, room 26, 1",
        "closing turn (P1). N = 0: over at once, no output, 0 turns done. Opening puts 0 into",
        "exactly 4 words; the words past them stay as they were.")
    start(A, 7, 26)
    do("close")
    say("When over: row, close and drain are not of this phase (12).")
    row(5)
    do("close", "drain 1")

    part("Table A, the rows of P2 and P3: 4294967290, 4, 3")
    say("01: row 0 gives stream 1 at 0: 50 01 00000000 fffffffa (numbers little-endian);",
        "row 1 gives 1 at 1 = 10 and 2 at 0 = ahead(4294967290, 4) = 0; row 2 gives 1 at 2 =",
        "4294967295 and 2 at 1 = ahead(4, 3) = 1 followed by 51 02 01000000; the closing turn",
        "gives 2 at 2 = ahead(3, 7) = 0. Then the run is over.")
    start(A, 7, 26)
    row(4294967290)
    row(4)
    row(3)
    do("close", "drain 1")
    say("Over now, with 1 turn done: 12 for each of them.")
    row(1)
    do("close", "drain 2")

    part("Table A, P4: one row 5; exactly the announced store, exactly the room")
    say("01: stream 1 is 5; stream 2 is ahead(5, default 7) = 0, on the closing turn.")
    start(A, 4, 26)
    row(5)
    do("close", "drain 1")

    part("Table A: a trigger true on the closing turn, and false")
    say("ahead(8, default 7) holds: 50 .. 01000000 then 51. ahead(7, 7) does not: no 51.")
    start(A, 4, 26)
    row(8)
    do("close", "drain 1", "open")
    row(7)
    do("close", "drain 1")

    part("P5: ahead over the wrap, beside the other operators of words")
    say("ahead(2147483647,0) holds; ahead(2147483648,0) and ahead(0,2147483648) don't;",
        "ahead(0,4294967295) holds; ahead(x,x) never (0 is not 1 to 2^31-1). No look-ahead; room 66.",
        "Streams: 2 ahead, 3 ahead turned (trigger), 4 less unsigned, 5 equal, 6 add, 7 sub.")
    data = make([W, W], [(F, 0, op(0x26, now(0), now(1))), (F, 1, op(0x26, now(1), now(0))),
                         (F, 0, op(0x27, now(0), now(1))), (F, 0, op(0x28, now(0), now(1))),
                         (W, 0, op(0x24, now(0), now(1))), (W, 0, op(0x25, now(0), now(1)))])
    start(data, 8, 66)
    top = 2 ** 31
    for a, b in [(top - 1, 0), (top, 0), (0, top), (0, 2 ** 32 - 1), (0, 0), (5, 5),
                 (2 ** 32 - 1, 0), (1, 0), (top + 1, 0), (0, top + 1), (0, top - 1),
                 (2 ** 32 - 1, 2 ** 32 - 1), (2 ** 32 - 1, 1), (1, 2 ** 32 - 1),
                 (4294967290, 4), (4, 4294967290), (top + 5, 6), (6, top + 5)]:
        row(a, b)
    say("No closing turns: closing makes the run over with 0 turns done, though N is above 0.")
    do("close", "drain 1")
    row(1, 1)
    say("A draining record can't be of a table without closing turns: 10.")
    do("set phase 1", "drain 1", "close")


def part_p6_to_p10():
    part("P6 to P10: loops; input 0, outputs y = 1, z = 2, all words")
    z = (W, 0, word(9))
    say("P6 y = now(y): 7 at 1.")
    table(make([W], [(W, 0, now(1)), z]))
    do("store 6", "out 20", "open")
    say("P7 y = at(y,1): 7 at 1.")
    table(make([W], [(W, 0, at(1, 1)), z]))
    do("open")
    say("P9 y = at(z,1), z = at(y,-1): total 0, 7 at 1.")
    table(make([W], [(W, 0, at(2, 1)), (W, 0, at(1, -1))]))
    do("open")
    say("y = now(z), z = at(z, 1): stream 1 has no walk back to itself: 7 at 2.")
    table(make([W], [(W, 0, now(2)), (W, 0, at(2, 1))]))
    do("open")
    say("y = at(y,-5) and at(z,0 by now), z = at(z,1) and at(y,-5): the loop of y alone totals -5;",
        "by z: 0 - 5 = -5, one turn round z more: -4, but walks have at most S = 3 edges, so",
        "y to z to z to y = -4 is the best: y is below 0. z: 1. Place 2.")
    table(make([W], [(W, 0, op(0x24, at(1, -5), now(2))), (W, 0, op(0x24, at(2, 1), at(1, -5)))]))
    do("open")
    say("The same with z back to y at -1: y to z to z to y = 0 in 3 edges. Place 1.")
    table(make([W], [(W, 0, op(0x24, at(1, -5), now(2))), (W, 0, op(0x24, at(2, 1), at(1, -1)))]))
    do("open")
    say("A loop of total 0 in the branch of an if that is never taken: both branches count, 7 at 1.")
    table(make([W], [(W, 0, op(0x23, flag(1), now(0), now(1))), z]))
    do("open")
    say("P8 y = at(y,-1), default 3, plus now(0): passes. y at 0 is 3 + the row; then sums.")
    start(make([W], [(W, 0, op(0x24, at(1, -1, 3), now(0))), z]), 5, 20)
    for x in (1, 4294967295, 4294967290, 20):
        row(x)
    do("close")
    say("P10 y = at(z,1,100), z = at(y,-2,50): look-ahead 0, 1, 0 (checksum 2), kept 1, 2, 1 (8).",
        "z is 50, 50, then y two earlier; y at j is z at j+1, the last one is 100.")
    start(make([W], [(W, 0, at(2, 1, 100)), (W, 0, at(1, -2, 50))]), 6, 20)
    for x in (1, 2, 3, 4):
        row(x)
    do("close", "drain 1", "drain 1")


def part_phases():
    part("Phase errors on table A, one after the other (12, place 0; nothing changes)")
    start(A, 7, 26)
    say("drain while reading, before any row and after one.")
    do("drain 1")
    row(10)
    do("drain 1")
    row(12)
    do("close")
    say("row after close; close twice.")
    row(13)
    do("close", "close")
    do("drain 1")
    say("drain when over, row when over, close when over.")
    do("drain 2")
    row(14)
    do("close")
    say("A refused row takes no position: the next accepted one has position 1.")
    do("open")
    row(1)
    row(1, 2)
    row(3)
    do("close", "drain 1")


def part_short_store():
    part("Short store: 11 for open, row and drain; closing is lent no store")
    table(A)
    do("store 3", "out 26")
    say("One word less than announced: open gives 11 and the all-zero record, store untouched.")
    do("open")
    do("store 0", "open")
    do("store 4", "open")
    row(9)
    say("A row and a draining call with 3 words: 11, the record handed back, the store untouched.")
    do("store 3")
    row(9)
    do("close", "drain 1", "store 0", "drain 1")
    say("With 4 words again (a fresh store of garbage): position 0 of stream 0 is read from word 0",
        "= a5a50000; stream 2 at 0 = ahead(a5a50000, 7): a5a4fff9 is not 1 to 2^31-1: false.")
    do("store 4", "drain 1")

    part("Short output: 16 for row and drain")
    table(A)
    do("store 4", "out 25", "open")
    say("One byte less than the room of 26: 16 though this turn would need but 10 bytes.")
    row(9)
    do("out 0")
    row(9)
    do("out 26")
    row(9)
    do("out 25", "close", "drain 1", "out 0", "drain 1", "out 26", "drain 1")
    say("More than the room: the rest stays EE.")
    do("out 1024", "open")
    row(9)
    do("close", "drain 1")


def part_wrong_record():
    part("A wrong record: each field by one, one at a time (10 at 0), table A")
    start(A, 7, 26)
    row(4294967290)
    say("look-ahead is 0, 0, 1 and kept is 2, 1, 1; each wrong by one, then right again.")
    for field, right in (("look", (0, 0, 1)), ("kept", (2, 1, 1))):
        for v, x in enumerate(right):
            for wrong in (x + 1, x - 1):
                if wrong >= 0:
                    do("set %s %d %d" % (field, v, wrong))
                    row(4)
                    do("close", "drain 1", "set %s %d %d" % (field, v, x))
    say("Numbers past S must be 0: the first past S, and the last of all.")
    for field in ("look", "kept"):
        for v in (3, 31):
            do("set %s %d 1" % (field, v))
            row(4)
            do("close", "drain 1", "set %s %d 0" % (field, v))
    do("set look 0 65535", "close", "set look 0 0", "set kept 1 65535", "close", "set kept 1 1")
    say("Reading with 1 turn done: 10. Over with 0 done but rows 1: 10.")
    do("set done 1")
    row(4)
    do("close", "drain 1", "set done 0", "set phase 2")
    row(4)
    do("close", "drain 1")
    say("Over with rows 0 and 0 done is of the table: 12, not 10. Draining with rows 0: 10.")
    do("set rows 0")
    row(4)
    do("close", "drain 1", "set phase 1")
    row(4)
    do("close", "drain 1")
    say("Draining with rows 1, 0 done: of the table; a row and closing are 12. Draining, 1 done: 10.")
    do("set rows 1")
    row(4)
    do("close", "set done 1")
    row(4)
    do("close", "drain 1")
    say("Over with rows 1, 1 done: of the table (12); 2 done or 0 done: 10; rows 0 with 1 done: 10.")
    do("set phase 2", "drain 1", "set done 2", "drain 1", "set done 0", "drain 1",
       "set done 1", "set rows 0", "drain 1", "close")
    row(4)
    say("Rows wrong by one while reading is still a record of the table, so it is answered:",
        "rows 2 after one row: turn 2, stream 1 at 2 reads position 1 (word 1, still 0 since opening).")
    do("set phase 0", "set done 0", "set rows 2")
    row(4)
    say("The all-zero record is never of a table (kept is at least 1).")
    do("table -", "open")
    table(A)
    row(4)
    do("close", "drain 1")
    say("A record of another table: table A's after a table of other numbers.")
    do("open")
    table(make([W], [(W, 0, now(0)), (W, 0, now(0))]))
    row(4)
    do("close", "drain 1")
    say("Every number right though the table is another: it is a record of this table as well.")
    do("open")
    table(make([L], [(L, 0, now(0)), (F, 1, flag(1))]))
    row(0x7FC00001)


def part_row_length():
    part("Row of wrong length: 14 at 0")
    start(A, 4, 26)
    do("row")
    row(1, 2)
    row(*range(40))
    row(1)
    data = make([W, F, L, F], [(W, 0, now(0)), (F, 1, op(0x21, now(1), now(3))), (L, 0, now(2))])
    start(data, 9, 36)
    do("row")
    row(1, 1, 1)
    row(1, 1, 1, 1, 1)
    say("Too short or too long goes before a bad flag word (14 before 15).")
    row(1, 2, 1)
    row(1, 1, 1, 2, 1)

    part("Input flag word above 1: 15 at the lowest such stream")
    say("Inputs: 0 word, 1 flag, 2 level, 3 flag. A word of 2 for a word or a level is no fault.")
    row(2, 1, 2, 1)
    row(1, 2, 1, 1)
    row(1, 1, 1, 2)
    row(1, 2, 1, 2)
    row(1, 0xFFFFFFFF, 1, 0)
    row(1, 0, 1, 0x80000000)
    row(1, 0, 1, 256)
    say("15 before 16 (short output), then 16 alone, then accepted; the position is 1.")
    do("out 35")
    row(1, 1, 1, 2)
    row(1, 1, 1, 1)
    do("out 36")
    row(1, 0, 0x7F800001, 1)
    row(4294967295, 1, 0xFFFFFFFF, 1)
    do("close")


def part_two_at_once():
    part("Two refusals at once: 10 to 16 in order (table A; S = 3, room 26, 4 words)")
    start(A, 7, 26)
    row(6)
    say("10 and 11, 12, 13, 14, 16 all at once: 10.")
    do("set rows 4294967295", "set phase 1", "set done 5", "store 3", "out 25")
    row(1, 2)
    do("drain 1", "close")
    say("Record right again (draining, 0 done): 11 and 12, 13, 14, 16: 11; closing: 12.")
    do("set done 0")
    row(1, 2)
    do("close")
    say("Draining call: 11 goes before 16.")
    do("drain 1")
    say("Store right: 12 and 13, 14, 16: 12.")
    do("store 4")
    row(1, 2)
    say("Reading again: 13 and 14, 16: 13. Draining while reading with short output: 12 before 16.")
    do("set phase 0")
    row(1, 2)
    do("drain 1")
    say("Short store goes before the phase: 11 before 12.")
    do("store 3", "drain 1", "store 4")
    say("Rows below the limit: 14 and 16: 14. Then 16 alone, then accepted.")
    do("set rows 1")
    row(1, 2)
    row(1)
    do("out 26")
    row(1)
    say("10 before 12 for closing: a wrong number and over.")
    do("set phase 2", "set done 1", "set kept 0 3", "close", "set kept 0 2", "close")
    say("11 before 15 and 15 before 16, 13 before 15 on a table with a flag input.")
    data = make([F], [(F, 1, now(0))])
    start(data, 2, 16)
    do("store 1", "out 15")
    row(2)
    do("store 2")
    row(2)
    row(1)
    do("set rows 4294967295")
    row(2)
    do("set rows 4294967294", "out 16")
    row(2)
    row(1)
    row(1)
    say("A refused table goes before everything else: wrong record, short store, wrong phase.")
    do("set done 9", "store 0", "out 0")
    table(make([F], [(F, 1, now(7))]))
    row(2, 2)
    do("close", "drain 1", "open")


REFUSED = [
    (1, "4,097 bytes: above the limit, place 0", A + bytes(4096 - 36 + 1)),
    (2, "table A less its last byte: body missing, place 29 (the last at)", A[:-1]),
    (3, "kind 04 in place of the second 03: place 9", A[:9] + b"\x04" + A[10:]),
    (4, "edition 2: place 0", b"\x01\x02" + A[2:]),
    (5, "equation 1 (word) is of kind 26 (flag): place 14", A[:14] + b"\x26" + A[15:]),
    (6, "a node at level 17", make([F], [(F, 0, nots(16, now(0)))])),
    (7, "stream 2 reads itself now: 7 at 2", make([W], [(W, 0, now(0)), (W, 0, now(2))])),
    (8, "4,097 store words", make([W] * 31, [(W, 0, added([at(v, -128) for v in range(31)]
                                                         + [at(31, -97)]))])),
    (9, "a byte after the last expression: place 36", A + b"\x00"),
]


def part_refused_tables():
    part("A refused table with any call: numbers 1 to 9")
    say("01: every call tests the table first. row, close and drain hand back the record they got",
        "(table A's with 1 row, though it be of no use here); open gives the all-zero record.")
    for number, why, data in REFUSED:
        say("number %d: %s" % (number, why))
        start(A, 7, 26)
        row(4294967290)
        table(data)
        row(4)
        do("close", "drain 1", "open")


def open_only(why, data):
    say(why)
    table(data)
    do("open")


def part_check():
    part("The check: faults in order, seen through open")
    do("store 5000", "out 1024")
    open_only("1 byte, kind 01: body missing, 2 at 0", b"\x01")
    open_only("1 byte, kind 00: 3 at 0", b"\x00")
    open_only("kind 02 first: 3 at 0 (3 goes before the missing body)", b"\x02")
    open_only("kind 60 first: 3 at 0", b"\x60\x01\x01\x01")
    open_only("head only: kind byte missing, 2 at 4", A[:4])
    open_only("head less a byte: 2 at 0, not 4 (edition 9): the body goes before its fields", b"\x01\x09\x01")
    for why, head in (("edition 0", b"\x01\x00\x01\x02"), ("I = 0", b"\x01\x01\x00\x02"),
                      ("O = 0", b"\x01\x01\x01\x00"), ("S = 33", b"\x01\x01\x20\x01"),
                      ("S = 510", b"\x01\x01\xff\xff"), ("S = 256 (0 in a byte)", b"\x01\x01\x80\x80")):
        open_only("%s: 4 at 0" % why, head + A[4:])
    open_only("S = 32 is allowed: the next fault is the missing input at 4 + 2", b"\x01\x01\x1f\x01" + b"\x02\x01")
    open_only("input type 3: 4 at 4", A[:5] + b"\x03" + A[6:])
    open_only("03 where 02 is wanted: 3 at 4", A[:4] + b"\x03" + A[5:])
    open_only("02 where 03 is wanted (one input too many): 3 at 6", A[:6] + b"\x02" + A[7:])
    open_only("output type 3: 4 at 6", A[:7] + b"\x03" + A[8:])
    open_only("role 2: 4 at 9", A[:11] + b"\x02" + A[12:])
    open_only("a trigger of type word: 4 at 6", A[:8] + b"\x01" + A[9:])
    open_only("a trigger of type level: 4 at 6", A[:7] + b"\x02\x01" + A[9:])
    open_only("03 where 04 is wanted: 3 at 12", A[:12] + b"\x03" + A[13:])
    open_only("first equation names stream 2: 4 at 12", A[:13] + b"\x02" + A[14:])
    open_only("first equation names the input: 4 at 12", A[:13] + b"\x00" + A[14:])
    open_only("second equation names stream 1: 4 at 24", A[:25] + b"\x01" + A[26:])
    open_only("second equation names stream 3: 4 at 24", A[:25] + b"\x03" + A[26:])
    open_only("an equation with no expression, the end: 2 at 14", A[:14])
    open_only("an equation followed by the next 04: 3 at 14", A[:14] + A[24:])
    open_only("kind 15 as a node: 3 at 14", A[:14] + b"\x15" + A[15:])
    open_only("kind 30 as a node: 3 at 14", A[:14] + b"\x30" + A[15:])
    open_only("kind 50 as a node: 3 at 14", A[:14] + b"\x50" + A[15:])
    open_only("now of stream 3 (S = 3): 4 at 15", A[:16] + b"\x03" + A[17:])
    open_only("now of stream 255: 4 at 15", A[:16] + b"\xff" + A[17:])
    open_only("at of stream 3: 4 at 17", A[:18] + b"\x03" + A[19:])
    open_only("k = 0: 4 at 17", A[:19] + b"\x00" + A[20:])
    one = [F, W, L]

    def single(kind, expression):
        return make(one, [(kind, 0, expression)])

    say("Inputs 0 flag, 1 word, 2 level, one output 3; the equation starts at 13, its node at 15.")
    open_only("flag constant 2: 4 at 15", single(F, b"\x10\x02"))
    open_only("flag constant 2 where a word is wanted: 4 goes before 5", single(W, b"\x10\x02"))
    open_only("flag constant 1 where a word is wanted: 5 at 15", single(W, flag(1)))
    open_only("flag default 2: 4 at 15", single(F, at(0, -1, 2)))
    open_only("flag default 256: 4 at 15", single(F, at(0, -1, 256)))
    open_only("flag default 1: accepted", single(F, at(0, -1, 1)))
    open_only("flag default 2 where a word is wanted: 4 goes before 5", single(W, at(0, -1, 2)))
    open_only("word default 2 where a flag is wanted: 5 at 15", single(F, at(1, -1, 2)))
    open_only("level default of NaN pattern: accepted", single(L, at(2, -1, 0x7F800001)))
    open_only("word constant where a level is wanted: 5", single(L, word(1)))
    open_only("level constant where a word is wanted: 5", single(W, level(1)))
    open_only("now of a level where a flag is wanted: 5", single(F, now(2)))
    open_only("if with a word condition: 5 at 16", single(W, op(0x23, now(1), now(1), now(1))))
    open_only("if with branches of type level where a word is wanted: 5 at 18",
              single(W, op(0x23, now(0), now(2), now(2))))
    open_only("if whose else is of another type: 5 at 20", single(W, op(0x23, now(0), now(1), now(2))))
    open_only("if of levels: accepted", single(L, op(0x23, now(0), now(2), level(0x7F800001))))
    open_only("if as the condition of an if: accepted",
              single(W, op(0x23, op(0x23, now(0), now(0), flag(0)), now(1), word(3))))
    for kind, good, bad in ((0x20, [0], [1]), (0x21, [0, 0], [0, 1]), (0x22, [0, 0], [2, 0]),
                            (0x26, [1, 1], [1, 2]), (0x27, [1, 1], [0, 1]), (0x28, [1, 1], [1, 0]),
                            (0x29, [0, 0], [0, 1]), (0x2A, [2, 2], [2, 1]), (0x2F, [2, 2], [1, 2])):
        open_only("kind %02x: result a flag, its operands right: accepted" % kind,
                  single(F, op(kind, *[now(v) for v in good])))
        open_only("kind %02x: an operand of another type: 5" % kind,
                  single(F, op(kind, *[now(v) for v in bad])))
        open_only("kind %02x where a word is wanted: 5 at 15" % kind,
                  single(W, op(kind, *[now(v) for v in good])))
    for kind, kind_type in ((0x24, W), (0x25, W), (0x2B, L), (0x2C, L), (0x2D, L), (0x2E, L)):
        v = kind_type
        open_only("kind %02x: accepted" % kind, single(kind_type, op(kind, now(v), now(v))))
        open_only("kind %02x: second operand a flag: 5 at 18" % kind,
                  single(kind_type, op(kind, now(v), now(0))))
        open_only("kind %02x where a flag is wanted: 5 at 15" % kind, single(F, op(kind, now(v), now(v))))
    open_only("16 levels: accepted", make([F], [(F, 0, nots(15, now(0)))]))
    say("Level 17 (node at 27; make([flag], [flag]) puts the outermost node at 11): 6 at 27.")
    deep = make([F], [(F, 0, nots(16, b""))])
    for why, tail in (("now", now(0)), ("no byte at all: 2 goes first", b""),
                      ("kind 04: 3 goes first", b"\x04\x02"), ("body missing: 2 goes first", b"\x13"),
                      ("stream 9: 6 goes before 4", now(9)), ("a word: 6 goes before 5", word(0)),
                      ("an operator: 6 at once", nots(5, now(0)))):
        open_only("level 17, %s" % why, deep + tail)
    open_only("9 goes before 7: a loop and a byte more", make([W], [(W, 0, now(1))]) + b"\x04")
    far = [at(v, -128) for v in range(31)] + [at(31, -97)]
    open_only("7 goes before 8: the table of 4,097 words whose output reads itself now as well: 7 at 31",
              make([W] * 31, [(W, 0, added(far + [now(31)]))]))
    open_only("9 goes before 8: the table of 4,097 words (%d bytes) and a byte more"
              % len(make([W] * 31, [(W, 0, added(far))])), make([W] * 31, [(W, 0, added(far))]) + b"\x01")
    open_only("4,096 bytes: within the limit; what follows table A is 9 at 36", A + bytes(4060))
    say("k = 127 and k = -128 are allowed.")
    open_only("look-ahead 127", make([W], [(W, 0, at(0, 127))]))
    open_only("129 kept", make([W], [(W, 0, at(0, -128))]))
    open_only("255 + 1 kept: both", make([W], [(W, 0, op(0x24, at(0, 127), at(0, -128)))]))


def part_big_tables():
    part("A table of exactly 4,096 bytes: 1,362 times now(0), added up")
    data = make([W], [(W, 0, added([now(0)] * 1362))])
    assert len(data) == 4096
    start(data, 2, 10)
    for x in (1, 3153401, 4294967295):
        row(x)
    do("close")

    part("The full store: 31 inputs read at -128, the output at -96: 4,096 words, accepted")
    data = make([W] * 31, [(W, 0, added([at(v, -128, 1) for v in range(31)] + [at(31, -96, 5)]))])
    table(data)
    say("One word less: 11. Exactly 4,096: accepted. Then three rows: 31 defaults of 1 and 5 = 36.")
    do("store 4095", "out 10", "open", "store 4096", "open")
    for r in range(3):
        row(*[(r + 1) * 1000 + v for v in range(31)])
    say("At row 128 the first row is read (position 0), and the output's position 32, never written: 0.",
        "At row 129 the second, at row 96 + 1 the output's own position 1.")
    for rows in (128, 129, 97):
        do("set rows %d" % rows)
        row(*[7] * 31)
    do("close")


def part_garbage():
    part("A store full of garbage, under a record that is of the table")
    say("01: the store is read as it is. After open a fresh garbage store is lent.",
        "Table A: rows 5 taken: turn 5. stream 1 at 5 = row - word 0 (position 4 mod 2) = row - a5a50000;",
        "stream 2 at 4 = ahead(word 0, row).")
    start(A, 4, 26)
    do("store 4", "set rows 5")
    row(0xA5A50001)
    row(0xA5A50001)
    do("close", "drain 1")

    part("A store word read as a flag is true when it isn't 0: the word 7")
    say("A table of words and one of flags with the same numbers: 7 is put in as a word and read",
        "as a flag. Stream 1 = at(0,-1), 2 = not of it, 3 = equal(at(0,-1), true), 4 = if, trigger 5.",
        "The value given is 1, not 7.")
    words = make([W], [(W, 0, at(0, -1))] + [(W, 0, word(0))] * 4)
    flags = make([F], [(F, 0, at(0, -1)), (F, 0, op(0x20, at(0, -1))),
                       (F, 0, op(0x29, at(0, -1), flag(1))),
                       (W, 0, op(0x23, at(0, -1), word(11), word(22))),
                       (F, 1, op(0x21, at(0, -1), op(0x22, flag(0), at(0, -1))))])
    for x in (7, 0, 0x80000000, 1, 0x7FC00000):
        start(words, 7, 56)
        row(x)
        table(flags)
        row(0)
    say("Garbage words a5a50000 .. as flags: all true.")
    do("store 7", "set rows 9")
    row(0)
    row(1)
    do("close")
    say("The kept value of an output (stream 1 reads itself at -1): garbage read as true, given as 1.")
    start(make([F], [(F, 1, op(0x22, now(0), at(1, -1)))]), 3, 16)
    do("store 3", "set rows 6")
    row(0)
    row(0)

    part("NaN patterns in the store are read as 7FC00000")
    say("Put in by a table of words, read by a table of levels of the same numbers.",
        "Stream 1 = at(0,-1), 2 = equal(at(0,-1), NaN constant), 3 = at(0,-1) + 1, 4 = at(0,-2) * 1.")
    words = make([W], [(W, 0, at(0, -1)), (W, 0, word(0)), (W, 0, word(0)), (W, 0, at(0, -2))])
    levels = make([L], [(L, 0, at(0, -1)), (F, 1, op(0x2A, at(0, -1), level(0x7FC00000))),
                        (L, 0, op(0x2B, at(0, -1), level(0x3F800000))),
                        (L, 0, op(0x2D, at(0, -2), level(0x3F800000)))])
    for x in (0x7F800001, 0xFF800001, 0xFFFFFFFF, 0x7FC00001, 0x7FC00000, 0x7F800000, 0xFF800000, 0x80000000):
        start(words, 9, 46)
        row(x)
        table(levels)
        row(0x7FA00000)
        row(1)


SPECIALS = [0x00000000, 0x80000000, 0x3F800000, 0xBF800000, 0x7F800000, 0xFF800000,
            0x7FC00000, 0x7F800001, 0xFFC12345, 0x00000001, 0x80000001, 0x007FFFFF,
            0x00800000, 0x7F7FFFFF, 0xFF7FFFFF, 0x3F800001, 0x33800000, 0x40490FDB]
MORE_PAIRS = [
    (0x4B800000, 0x3F800000), (0x4B800001, 0x3F800000), (0x4B800000, 0x3F800001),
    (0x3F800000, 0x33800000), (0x3F800001, 0x33800000), (0x3F800000, 0x33800001),
    (0x7F7FFFFF, 0x73000000), (0x7F7FFFFF, 0x72FFFFFF), (0x7F7FFFFF, 0xFF7FFFFF),
    (0x00800000, 0x00000001), (0x00800001, 0x00800000), (0x00800000, 0x3F000000),
    (0x00000001, 0x3F000000), (0x00000003, 0x3F000000), (0x00000001, 0x3F000001),
    (0x1A000000, 0x1A000000), (0x1A3504F3, 0x1A3504F3), (0x20000000, 0x1F800000),
    (0x3F800000, 0x40400000), (0x40400000, 0x41200000), (0x00000001, 0x40000000),
    (0x00000003, 0x40000000), (0x00FFFFFF, 0x40000000), (0x7F7FFFFF, 0x3F7FFFFF),
    (0x5F800000, 0x5F800000), (0x5F7FFFFF, 0x5F800000), (0x3F7FFFFF, 0x3F7FFFFF),
    (0xC0490FDB, 0x40490FDB), (0x40490FDB, 0x40490FDA), (0x12345678, 0x9ABCDEF0),
    (0x007FFFFF, 0x3F7FFFFF), (0x00800000, 0x3F7FFFFF), (0x00000001, 0x7F7FFFFF)]


def part_levels():
    part("Levels: every operator over every pair of special values, then pairs about rounding")
    say("Inputs 0, 1 levels; 2 add, 3 sub, 4 mul, 5 div, 6 less, 7 equal (trigger), 8 at(0,-1) with the",
        "default ffffffff (read as 7fc00000), 9 at(0,1) with the default 7f800001 (look-ahead 1),",
        "10 the constant ff800001, 11 if less then 0 else 1, 12 (0 * 1) - (0 / 1).",
        "01: NaN in rows, results, table: 7fc00000; 0/0 is 7fc00000, 1/0 is 7f800000 (P11); equal is of",
        "all 32 bits (so NaN equals NaN after reading, 0 is not -0); less is false with NaN.")
    data = make([L, L], [(L, 0, op(0x2B, now(0), now(1))), (L, 0, op(0x2C, now(0), now(1))),
                         (L, 0, op(0x2D, now(0), now(1))), (L, 0, op(0x2E, now(0), now(1))),
                         (F, 0, op(0x2F, now(0), now(1))), (F, 1, op(0x2A, now(0), now(1))),
                         (L, 0, at(0, -1, 0xFFFFFFFF)), (L, 0, at(0, 1, 0x7F800001)),
                         (L, 0, level(0xFF800001)),
                         (L, 0, op(0x23, op(0x2F, now(0), now(1)), now(0), now(1))),
                         (L, 0, op(0x2C, op(0x2D, now(0), now(1)), op(0x2E, now(0), now(1))))])
    start(data, 16, 116)
    for a in SPECIALS:
        for b in SPECIALS:
            row(a, b)
    for a, b in MORE_PAIRS:
        row(a, b)
        row(b, a)
    do("close", "drain 1", "drain 1")

    part("Levels that read themselves: sums and products of a run, NaN staying NaN")
    say("1 = at(1,-1,3f800000) + now(0), 2 = at(2,-1,ff800001) * now(0) (NaN from the default on),",
        "3 = at(3,-1,3f800000) / now(0), trigger 4 = less(at(1,-1,0), now(1)).")
    data = make([L], [(L, 0, op(0x2B, at(1, -1, 0x3F800000), now(0))),
                      (L, 0, op(0x2D, at(2, -1, 0xFF800001), now(0))),
                      (L, 0, op(0x2E, at(3, -1, 0x3F800000), now(0))),
                      (F, 1, op(0x2F, at(1, -1, 0), now(1)))])
    start(data, 9, 46)
    for x in (0x3F800000, 0x40400000, 0x33800000, 0xC0A00000, 0x7F7FFFFF, 0x7F7FFFFF, 0xFF800000, 1):
        row(x)
    do("close")
    say("On a garbage store: a5a50000 .. are finite levels below 0; three rows.")
    do("open", "store 9", "set rows 3")
    row(0x40490FDB)
    row(0x80000000)
    row(0)
    do("close")


def part_flags():
    part("Flags: every operator over every pair, triggers true and false")
    say("Inputs 0, 1 flags; 2 not 0, 3 and, 4 or (trigger), 5 equal (trigger), 6 if 0 then 1 else not 1,",
        "7 if 0 then constant true else at(1,-1,1), 8 not of (not 0 and not 1) (trigger, the same as 4).",
        "Room 7 * 10 + 3 * 6 = 88, all of it used with both true.")
    data = make([F, F], [(F, 0, op(0x20, now(0))), (F, 0, op(0x21, now(0), now(1))),
                         (F, 1, op(0x22, now(0), now(1))), (F, 1, op(0x29, now(0), now(1))),
                         (F, 0, op(0x23, now(0), now(1), op(0x20, now(1)))),
                         (F, 0, op(0x23, now(0), flag(1), at(1, -1, 1))),
                         (F, 1, op(0x20, op(0x21, op(0x20, now(0)), op(0x20, now(1)))))])
    start(data, 12, 88)
    for a, b in ((0, 0), (0, 1), (0, 0), (1, 0), (1, 1), (0, 1), (0, 0)):
        row(a, b)
    do("close")


def part_chains():
    part("Same-turn references against stream order: a chain of now, six deep")
    say("1 = now(2), 2 = now(3), .. 5 = now(6), 6 = now(0) + at(1,-1,100). All look-aheads 0: every value",
        "is of this turn, so 6 must come first though the output is in stream order. Also 7 = 1 - 6 = 0.")
    chain = [(W, 0, now(v + 1)) for v in range(1, 6)]
    data = make([W], chain + [(W, 0, op(0x24, now(0), at(1, -1, 100))), (W, 0, op(0x25, now(1), now(6)))])
    start(data, 10, 70)
    for x in (1, 10, 4294967295, 0):
        row(x)
    do("close")

    part("Same-turn references to and fro: 1 of 4, 4 of 2, 2 of 6, 6 of 3, 3 of 5, 5 of the row")
    say("v = the stream it reads + v, so the order shows: 5 = x + 5, 3 = x + 8, 6 = x + 14, 2 = x + 16,",
        "4 = x + 20, 1 = x + 21. Then the same with stream 6 reading 3 at 1 (look-ahead 1 above it).")
    for third in (now(3), at(3, 1, 1000)):
        reads = {1: now(4), 2: now(6), 3: now(5), 4: now(2), 5: now(0), 6: third}
        start(make([W], [(W, 0, op(0x24, reads[v], word(v))) for v in range(1, 7)]), 10, 60)
        for x in (0, 100, 4294967295):
            row(x)
        do("close", "drain 1")

    part("Same-turn references with mixed look-ahead, against stream order")
    say("1 = at(2,1,11), 2 = now(3), 3 = at(4,2,22) + now(5), 4 = now(5), 5 = now(0) + at(6,-1,33),",
        "6 = at(5,-1,44). Look-ahead 0, 3, 2, 2, 0, 0, 0: on turn t stream 1 is due at t-3 and wants 2 at",
        "t-2 (this turn), which wants 3 at t-2, which wants 4 at t (this turn) and 5 at t-2 (kept).")
    data = make([W], [(W, 0, at(2, 1, 11)), (W, 0, now(3)), (W, 0, op(0x24, at(4, 2, 22), now(5))),
                      (W, 0, now(5)), (W, 0, op(0x24, now(0), at(6, -1, 33))), (W, 0, at(5, -1, 44))])
    for count in (1, 2, 3, 6):
        start(data, 20, 60)
        for x in range(count):
            row(1000 * (x + 1))
        do("close", "drain 4")
    say("The same under garbage, in the middle of a run and of its closing.")
    start(data, 20, 60)
    do("store 20", "set rows 7")
    row(5)
    row(6)
    do("close", "store 20", "drain 1", "store 20", "drain 2")

    part("Runs with look-ahead 2, to the end: N = 0 to 5")
    say("Inputs 0 word, 1 flag. 2 = at(0,2,7) - at(0,-1,1); trigger 3 = at(1,1,1) and not now(1);",
        "4 = at(2,-1,9) + now(0): look-ahead 0, 0, 2, 1, 1; 5 = if at(3,-2) then now(4) else at(0,1,8).")
    data = make([W, F], [(W, 0, op(0x25, at(0, 2, 7), at(0, -1, 1))),
                         (F, 1, op(0x21, at(1, 1, 1), op(0x20, now(1)))),
                         (W, 0, op(0x24, at(2, -1, 9), now(0))),
                         (W, 0, op(0x23, at(3, -2), now(4), at(0, 1, 8)))])
    for count in range(6):
        start(data, 20, 46)
        for x in range(count):
            row(3 ** x * 100000000, x % 2)
        do("close", "drain 3")

    part("Runs with look-ahead 3, to the end, a trigger true and false: N = 1 to 5")
    say("Input 0 flag, 1 word. Trigger 2 = at(0,3,1); trigger 3 = not at(2,-2); 4 = at(1,3,5) + at(4,-2,1);",
        "trigger 5 = ahead(now(4), at(1,-3,2)).")
    data = make([F, W], [(F, 1, at(0, 3, 1)), (F, 1, op(0x20, at(2, -2))),
                         (W, 0, op(0x24, at(1, 3, 5), at(4, -2, 1))),
                         (F, 1, op(0x26, now(4), at(1, -3, 2)))])
    for count in range(1, 6):
        start(data, 30, 58)
        for x in range(count):
            row((x + count) % 2, 2 ** 31 + x * 77)
        do("close", "drain 4")

    part("Wrap of word streams: a sum and a countdown of a run that reads itself")
    say("1 = at(1,-1,4294967290) + now(0), 2 = at(2,-1,3) - 1, trigger 3 = ahead(now(1), at(1,-1,4294967290)),",
        "4 = less of the same. Past 2^32 ahead holds where less of words says the other.")
    data = make([W], [(W, 0, op(0x24, at(1, -1, 4294967290), now(0))), (W, 0, op(0x25, at(2, -1, 3), word(1))),
                      (F, 1, op(0x26, now(1), at(1, -1, 4294967290))),
                      (F, 0, op(0x27, at(1, -1, 4294967290), now(1)))])
    start(data, 8, 46)
    for x in (2, 2, 2, 2, 4294967295, 2147483647, 2147483648, 2147483649):
        row(x)
    do("close")


def longest():
    outputs = [(W, 0, at(v + 1, 127, v)) for v in range(1, 31)] + [(W, 0, at(0, 127, 31))]
    return make([W], outputs)


def part_longest():
    part("Look-ahead 3,937: 31 steps of 127 on 32 streams")
    say("v = at(v+1,127,default v) for v = 1 to 30, 31 = at(0,127,31): look-ahead of v is (32-v) * 127, the",
        "largest 3,937; all kept 1. One row: 0 < 127, so stream v at 0 is its default v, given on turn",
        "(32-v) * 127: the last (stream 1) on turn 3,937, the 3,937th closing turn. One more: 12.")
    start(longest(), 35, 310)
    row(0xDEADBEEF)
    do("close", "drain 3937", "drain 1")
    say("Near the row limit: N = 4,294,967,295. Turns pass 2^32; positions are N + done - look-ahead < N.")
    do("store 32", "set phase 1", "set rows 4294967295", "set done 0", "drain 2",
       "set done 126", "drain 3", "set done 3809", "drain 3", "set done 3934", "drain 4")
    say("done 3,937 while draining: 10; over with 3,936: 10.")
    do("set phase 1", "drain 1", "set phase 2", "drain 1", "set done 3936", "drain 1")
    say("The last row of all with this table: turn 4,294,967,294.")
    do("set phase 0", "set done 0", "set rows 4294967294")
    row(0x01020304)
    row(0x01020304)
    do("close", "drain 2")


def part_limit():
    part("Rows near the limit: table A with 4,294,967,294 rows taken")
    say("Accepted: turn 4,294,967,294, stream 1 there, stream 2 at 4,294,967,293; rows become the limit.",
        "Word 4294967293 mod 2 = 1 of stream 0 is a5a50001, the new value goes into word 0.")
    start(A, 4, 26)
    do("store 4", "set rows 4294967294")
    row(4)
    say("Row limit reached: 13. Draining while reading: 12. Closing is of this phase.")
    row(5)
    do("drain 1", "close")
    row(5)
    say("The closing turn is 4,294,967,295: stream 2 at 4,294,967,294; the future is not below N: default 7.")
    do("drain 1", "drain 1")
    row(5)
    say("One row earlier, then two to the limit; a trigger true at the end.")
    do("open", "set rows 4294967293")
    row(100)
    row(99)
    row(98)
    do("close", "drain 2")

    part("Rows near the limit: kept 6 and 7, look-ahead 3 (positions p mod n near 2^32)")
    say("1 = at(0,3,70) + at(0,-2,71), 2 = at(1,-1,72) + now(0), 3 = now(2), 4 = at(4,-6,73) + at(0,1,74):",
        "look-ahead 0, 3, 2, 2, 1; kept 6, 1, 1, 1, 7. Closing is turns 4294967295, 4294967296 and",
        "4294967297; every position stays below 2^32 - 1. 4294967294 mod 6 = 2, mod 7 = 2.")
    data = make([W], [(W, 0, op(0x24, at(0, 3, 70), at(0, -2, 71))),
                      (W, 0, op(0x24, at(1, -1, 72), now(0))), (W, 0, now(2)),
                      (W, 0, op(0x24, at(4, -6, 73), at(0, 1, 74)))])
    for rows, fresh in ((4294967286, 0), (4294967294, 1), (4294967295, 1)):
        start(data, 16, 40)
        if fresh:
            do("store 16")
        do("set rows %d" % rows)
        for x in range(4294967295 - rows + 1):
            row(1 + x)
        do("close", "drain 4")
    say("The reading of positions 2^31 - 1, 2^31, and past it.")
    do("open", "set rows 2147483647")
    row(1)
    row(2)
    row(3)
    do("set rows 65535")
    row(4)
    row(5)
    do("close", "drain 3")


def main():
    LINES.append("# Sessions: a script of calls, from document 01 (01) alone. Made by tests/make_script.py.")
    part_start()
    part_examples()
    part_p6_to_p10()
    part_phases()
    part_short_store()
    part_wrong_record()
    part_row_length()
    part_two_at_once()
    part_refused_tables()
    part_check()
    part_big_tables()
    part_garbage()
    part_levels()
    part_flags()
    part_chains()
    part_longest()
    part_limit()
    print("\n".join(LINES))


if __name__ == "__main__":
    main()
