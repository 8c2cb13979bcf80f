#!/usr/bin/env python3
"""Document 01's check and calls (open, row, close, drain), with store and record.

Written from the text of document 01 alone; "01:" below cites its sections.
Usage:
    python3 tests/sessions.py < tests/sessions.script   prints one line for each call
    python3 tests/sessions.py --self-test [script]      runs compared with the one model;
                                                 the script's tables and rows too
"""
import functools
import random
import struct
import sys
from collections import namedtuple
from fractions import Fraction

FLAG, WORD, LEVEL = 0, 1, 2
READING, DRAINING, OVER = 0, 1, 2
MASK = 0xFFFFFFFF
NAN = 0x7FC00000
INFINITY = 0x7F800000
STREAMS = 32
ROW_LIMIT = 4294967295
STORE_LIMIT = 4096
TABLE_LIMIT = 4096
DEEPEST = 16


# ---------------------------------------------------------------- 01: Values

def is_nan(bits):
    """01: exponent bits all ones, fraction not zero."""
    return (bits & INFINITY) == INFINITY and (bits & 0x007FFFFF) != 0


def read(kind, word):
    """The value a 32-bit word stands for, as its image (flag 0/1, word, level).

    01: any NaN pattern in a table, row, store or result is read as 7FC00000;
    a store word read as a flag is true exactly when it is not 0.
    """
    if kind == FLAG:
        return 1 if word != 0 else 0
    if kind == LEVEL and is_nan(word):
        return NAN
    return word


# ------------------------------------------- 01: binary32, one rounding each

def negative(bits):
    return bits >> 31


def magnitude(bits):
    return bits & 0x7FFFFFFF


def exact(bits):
    """The rational number a finite level stands for."""
    power = magnitude(bits) >> 23
    fraction = bits & 0x007FFFFF
    if power == 0:
        value = Fraction(fraction) / 2 ** 149
    else:
        value = Fraction(fraction + 2 ** 23) * Fraction(2) ** (power - 150)
    return -value if negative(bits) else value


def rounded(value, zero_sign):
    """The binary32 nearest to an exact rational, ties to even."""
    if value == 0:
        return zero_sign << 31
    sign = 1 if value < 0 else 0
    size = abs(value)
    power = size.numerator.bit_length() - size.denominator.bit_length()
    if Fraction(2) ** power > size:
        power -= 1
    power = max(power, -126)
    steps = round(size / Fraction(2) ** (power - 23))  # Fraction: half to even
    bits = ((power + 126) << 23) + steps  # a carry moves into the exponent
    return (sign << 31) | min(bits, INFINITY)


def level_add(a, b):
    if is_nan(a) or is_nan(b):
        return NAN
    if magnitude(a) == INFINITY:
        return NAN if b == a ^ 0x80000000 else a
    if magnitude(b) == INFINITY:
        return b
    return rounded(exact(a) + exact(b), negative(a) & negative(b))


def level_sub(a, b):
    if is_nan(a) or is_nan(b):
        return NAN
    return level_add(a, b ^ 0x80000000)


def level_mul(a, b):
    sign = negative(a) ^ negative(b)
    if is_nan(a) or is_nan(b):
        return NAN
    if magnitude(a) == INFINITY or magnitude(b) == INFINITY:
        if magnitude(a) == 0 or magnitude(b) == 0:
            return NAN
        return (sign << 31) | INFINITY
    return rounded(exact(a) * exact(b), sign)


def level_div(a, b):
    sign = negative(a) ^ negative(b)
    if is_nan(a) or is_nan(b):
        return NAN
    if magnitude(a) == INFINITY:
        return NAN if magnitude(b) == INFINITY else (sign << 31) | INFINITY
    if magnitude(b) == INFINITY:
        return sign << 31
    if magnitude(b) == 0:
        return NAN if magnitude(a) == 0 else (sign << 31) | INFINITY
    return rounded(exact(a) / exact(b), sign)


def level_less(a, b):
    """01: false where either is NaN; -0 and +0 are equal numbers."""
    if is_nan(a) or is_nan(b):
        return 0
    left = -magnitude(a) if negative(a) else magnitude(a)
    right = -magnitude(b) if negative(b) else magnitude(b)
    return int(left < right)


# ------------------------------------------------------------- 01: The table

WANTED = None  # in OPERATORS: the type the place wants (kind 23)
OPERATORS = {  # kind: (types of the operands, type of the result, function)
    0x20: ((FLAG,), FLAG, lambda a: 1 - a),
    0x21: ((FLAG, FLAG), FLAG, lambda a, b: a & b),
    0x22: ((FLAG, FLAG), FLAG, lambda a, b: a | b),
    0x23: ((FLAG, WANTED, WANTED), WANTED, lambda f, a, b: a if f else b),
    0x24: ((WORD, WORD), WORD, lambda a, b: (a + b) & MASK),
    0x25: ((WORD, WORD), WORD, lambda a, b: (a - b) & MASK),
    0x26: ((WORD, WORD), FLAG, lambda a, b: int(1 <= (a - b) & MASK <= 2 ** 31 - 1)),
    0x27: ((WORD, WORD), FLAG, lambda a, b: int(a < b)),
    0x28: ((WORD, WORD), FLAG, lambda a, b: int(a == b)),
    0x29: ((FLAG, FLAG), FLAG, lambda a, b: int(a == b)),
    0x2A: ((LEVEL, LEVEL), FLAG, lambda a, b: int(a == b)),
    0x2B: ((LEVEL, LEVEL), LEVEL, level_add),
    0x2C: ((LEVEL, LEVEL), LEVEL, level_sub),
    0x2D: ((LEVEL, LEVEL), LEVEL, level_mul),
    0x2E: ((LEVEL, LEVEL), LEVEL, level_div),
    0x2F: ((LEVEL, LEVEL), FLAG, level_less),
}
BODY = {0x01: 3, 0x02: 1, 0x03: 2, 0x04: 1,
        0x10: 1, 0x11: 4, 0x12: 4, 0x13: 1, 0x14: 6}
BODY.update((kind, 0) for kind in OPERATORS)
EXPRESSION_KINDS = {0x10, 0x11, 0x12, 0x13, 0x14} | set(OPERATORS)
CONSTANT_TYPE = {0x10: FLAG, 0x11: WORD, 0x12: LEVEL}

Constant = namedtuple("Constant", "value")
Reference = namedtuple("Reference", "stream offset default")  # now: offset 0
Operator = namedtuple("Operator", "kind operands")
Table = namedtuple("Table", "inputs types triggers equations")
Checked = namedtuple("Checked", "table look kept base words room closing")
Record = namedtuple("Record", "look kept rows phase done")
Answer = namedtuple("Answer", "record number place count")

ZERO_RECORD = Record((0,) * STREAMS, (0,) * STREAMS, 0, READING, 0)


class Refused(Exception):
    def __init__(self, number, place):
        super().__init__(number, place)
        self.number = number
        self.place = place


class Scan:
    """Front to back over the records; stops at the first fault."""

    def __init__(self, data):
        self.data = data
        self.next = 0

    def record(self, allowed):
        """01: missing kind byte (2), kind not allowed (3), missing body (2)."""
        place = self.next
        if place >= len(self.data):
            raise Refused(2, place)
        kind = self.data[place]
        if kind not in allowed:
            raise Refused(3, place)
        body = self.data[place + 1:place + 1 + BODY[kind]]
        if len(body) < BODY[kind]:
            raise Refused(2, place)
        self.next = place + 1 + len(body)
        return place, kind, body


def need(rule, place):
    """01: refusal 4, a field out of its rule."""
    if not rule:
        raise Refused(4, place)


def leaf(place, kind, body, types):
    """A constant or a reference: the node and its type."""
    if kind in CONSTANT_TYPE:
        kind_type = CONSTANT_TYPE[kind]
        word = int.from_bytes(body, "little")
        need(kind_type != FLAG or word <= 1, place)
        return Constant(read(kind_type, word)), kind_type
    stream = body[0]
    need(stream < len(types), place)
    if kind == 0x13:
        return Reference(stream, 0, None), types[stream]
    offset = int.from_bytes(body[1:2], "little", signed=True)
    default = int.from_bytes(body[2:6], "little")
    need(offset != 0, place)
    need(types[stream] != FLAG or default <= 1, place)
    return Reference(stream, offset, read(types[stream], default)), types[stream]


def expression(scan, types, wanted, level):
    """One expression; for one record the order is 2, 3, 2, 6, 4, 5."""
    place, kind, body = scan.record(EXPRESSION_KINDS)
    if level > DEEPEST:
        raise Refused(6, place)
    if kind not in OPERATORS:
        node, result = leaf(place, kind, body, types)
        if result != wanted:
            raise Refused(5, place)
        return node
    operand_types, result, _ = OPERATORS[kind]
    if result is not WANTED and result != wanted:
        raise Refused(5, place)
    operands = [expression(scan, types, wanted if t is WANTED else t, level + 1)
                for t in operand_types]
    return Operator(kind, operands)


def scan_table(data):
    """01: one 01; I of 02; O of 03; O of 04 in stream order; then 9."""
    if not 1 <= len(data) <= TABLE_LIMIT:
        raise Refused(1, 0)
    scan = Scan(data)
    place, _, (edition, inputs, outputs) = scan.record({0x01})
    need(edition == 1 and inputs >= 1 and outputs >= 1, place)
    need(inputs + outputs <= STREAMS, place)
    types, triggers, equations = [], set(), {}
    for _ in range(inputs):
        place, _, (kind,) = scan.record({0x02})
        need(kind <= LEVEL, place)
        types.append(kind)
    for stream in range(inputs, inputs + outputs):
        place, _, (kind, role) = scan.record({0x03})
        need(kind <= LEVEL and role <= 1 and (role == 0 or kind == FLAG), place)
        types.append(kind)
        if role == 1:
            triggers.add(stream)
    for stream in range(inputs, inputs + outputs):
        place, _, (named,) = scan.record({0x04})
        need(named == stream, place)
        equations[stream] = expression(scan, types, types[stream], 1)
    if scan.next < len(data):
        raise Refused(9, scan.next)
    return Table(inputs, types, triggers, equations)


# ------------------------------------------- 01: What the check announces

def references(node):
    if isinstance(node, Reference):
        return [node]
    if isinstance(node, Operator):
        return [r for operand in node.operands for r in references(operand)]
    return []


def edges_of(table):
    """01: an edge of weight k from y to v for each at(v, k), 0 for now(v)."""
    return {(y, r.stream, r.offset)
            for y, equation in table.equations.items()
            for r in references(equation)}


def loop_place(streams, edges):
    """01, refusal 7: lowest stream with a walk of 1 to S edges back to
    itself totalling 0 or more; None if there is none."""
    for start in range(streams):
        best = {start: 0}  # largest total of a walk of exactly n edges
        for _ in range(streams):
            further = {}
            for y, v, k in edges:
                if y in best:
                    further[v] = max(further.get(v, best[y] + k), best[y] + k)
            best = further
            if best.get(start, -1) >= 0:
                return start
    return None


def look_aheads(streams, edges):
    """01: the largest total of a walk from v, the empty walk included.
    Every loop totals below 0 here, so walks below S edges are enough."""
    look = [0] * streams
    for _ in range(streams):
        for y, v, k in edges:
            look[y] = max(look[y], k + look[v])
    return look


def kept_numbers(look, edges):
    kept = [1] * len(look)
    for y, v, k in edges:
        kept[v] = max(kept[v], 1 + look[y] - k - look[v])
    return kept


def padded(numbers):
    """01: the record's numbers are 0 past S."""
    return tuple(numbers) + (0,) * (STREAMS - len(numbers))


@functools.lru_cache(maxsize=None)
def check(data):
    """The check: a Checked or a Refused (given back, not raised)."""
    try:
        table = scan_table(data)
        edges = edges_of(table)
        streams = len(table.types)
        place = loop_place(streams, edges)
        if place is not None:
            raise Refused(7, place)
        look = look_aheads(streams, edges)
        kept = kept_numbers(look, edges)
        if sum(kept) > STORE_LIMIT:
            raise Refused(8, 0)
    except Refused as refusal:
        return refusal
    base = [sum(kept[:v]) for v in range(streams)]
    room = 10 * (streams - table.inputs) + 6 * len(table.triggers)
    return Checked(table, padded(look), padded(kept), base, sum(kept), room, max(look))


# ------------------------------------------------------------- 01: A run

def evaluate(node, position, refer):
    if isinstance(node, Constant):
        return node.value
    if isinstance(node, Reference):
        return refer(position, node)
    operands = [evaluate(operand, position, refer) for operand in node.operands]
    return OPERATORS[node.kind][2](*operands)


def due_values(checked, store, turn, known, row):
    """The values of turn: {stream: (position, value)}, inputs included.

    01: those whose position is the turn less their look-ahead and lies in the
    trace (known positions). A reference to a value of this very turn is
    evaluated first, whatever the stream order (no loop totals 0, so this ends);
    any other one lies in the store, and is read as the store has it.
    """
    table = checked.table
    due = {v: turn - checked.look[v] for v in range(len(table.types))
           if 0 <= turn - checked.look[v] < known}
    values = {}

    def value(stream):
        if stream not in values:
            if stream < table.inputs:
                values[stream] = read(table.types[stream], row[stream])
            else:
                values[stream] = evaluate(table.equations[stream], due[stream], refer)
        return values[stream]

    def refer(position, reference):
        stream, offset, default = reference
        wanted = position + offset
        if not 0 <= wanted < known:
            return default
        if due.get(stream) == wanted:
            return value(stream)
        word = store[checked.base[stream] + wanted % checked.kept[stream]]
        return read(table.types[stream], word)

    return {stream: (due[stream], value(stream)) for stream in sorted(due)}


def make_turn(checked, store, output, turn, known, row):
    """Evaluates, then writes store and output; the bytes written."""
    values = due_values(checked, store, turn, known, row)
    written = bytearray()
    for stream, (position, value) in values.items():
        store[checked.base[stream] + position % checked.kept[stream]] = value
        if stream >= checked.table.inputs:
            written += struct.pack("<BBII", 0x50, stream, position, value)
            if stream in checked.table.triggers and value:
                written += struct.pack("<BBI", 0x51, stream, position)
    output[:len(written)] = written
    return len(written)


def of_table(checked, record):
    """01, under the refusal numbers: a record is of the table when .."""
    if record.look != checked.look or record.kept != checked.kept:
        return False
    if not 0 <= record.rows <= ROW_LIMIT:
        return False
    if record.phase == READING:
        return record.done == 0
    if record.phase == DRAINING:
        return record.rows >= 1 and record.done < checked.closing
    if record.phase == OVER:
        return record.done == (checked.closing if record.rows >= 1 else 0)
    return False


def refuse_if(fault, number, place=0):
    if fault:
        raise Refused(number, place)


def checked_table(data):
    """01: every call tests the table first."""
    checked = check(data)
    if isinstance(checked, Refused):
        raise Refused(checked.number, checked.place)
    return checked


def call_open(data, store):
    """01: the table, 11; puts 0 into exactly the announced store words."""
    try:
        checked = checked_table(data)
        refuse_if(len(store) < checked.words, 11)
    except Refused as refusal:
        return Answer(ZERO_RECORD, refusal.number, refusal.place, 0)
    store[:checked.words] = [0] * checked.words
    return Answer(Record(checked.look, checked.kept, 0, READING, 0), 0, 0, 0)


def bad_flags(checked, row):
    return [v for v in range(checked.table.inputs)
            if checked.table.types[v] == FLAG and row[v] > 1]


def call_row(data, record, store, output, row):
    """01: the table, then 10 to 16 in order."""
    try:
        checked = checked_table(data)
        refuse_if(not of_table(checked, record), 10)
        refuse_if(len(store) < checked.words, 11)
        refuse_if(record.phase != READING, 12)
        refuse_if(record.rows == ROW_LIMIT, 13)
        refuse_if(len(row) != checked.table.inputs, 14)
        bad = bad_flags(checked, row)
        refuse_if(bad, 15, min(bad, default=0))
        refuse_if(len(output) < checked.room, 16)
    except Refused as refusal:
        return Answer(record, refusal.number, refusal.place, 0)
    count = make_turn(checked, store, output, record.rows, record.rows + 1, row)
    return Answer(record._replace(rows=record.rows + 1), 0, 0, count)


def call_close(data, record):
    """01: the table, 10, 12; N = 0 or no closing turns: over, else draining."""
    try:
        checked = checked_table(data)
        refuse_if(not of_table(checked, record), 10)
        refuse_if(record.phase != READING, 12)
    except Refused as refusal:
        return Answer(record, refusal.number, refusal.place, 0)
    ended = record.rows == 0 or checked.closing == 0
    return Answer(record._replace(phase=OVER if ended else DRAINING), 0, 0, 0)


def call_drain(data, record, store, output):
    """01: the table, 10, 11, 12, 16; turn N + done, over after the last."""
    try:
        checked = checked_table(data)
        refuse_if(not of_table(checked, record), 10)
        refuse_if(len(store) < checked.words, 11)
        refuse_if(record.phase != DRAINING, 12)
        refuse_if(len(output) < checked.room, 16)
    except Refused as refusal:
        return Answer(record, refusal.number, refusal.place, 0)
    turn = record.rows + record.done
    count = make_turn(checked, store, output, turn, record.rows, None)
    done = record.done + 1
    phase = OVER if done == checked.closing else DRAINING
    return Answer(record._replace(done=done, phase=phase), 0, 0, count)


# ------------------------------------------------------------- the script

def checksum(numbers):
    return "%08x" % (sum((i + 1) * x for i, x in enumerate(numbers)) & MASK)


class Malformed(Exception):
    pass


def decimal(text, low, high):
    if not text.isascii() or not text.isdigit() or not low <= int(text) <= high:
        raise Malformed
    return int(text)


def hex_bytes(text):
    if len(text) % 2 or not set(text) <= set("0123456789abcdef"):
        raise Malformed
    return bytes.fromhex(text)


def hex_word(text):
    if len(text) != 8:
        raise Malformed
    return int.from_bytes(hex_bytes(text), "big")


class Session:
    """What a script holds between its lines."""

    def __init__(self, out):
        self.out = out
        self.table = b""
        self.store = []
        self.output = bytearray()
        self.record = ZERO_RECORD

    def call(self, name, function):
        self.output[:] = b"\xEE" * len(self.output)
        answer = function()
        self.record = answer.record
        record, written = answer.record, self.output[:answer.count]
        self.out.write(
            "%s %d %d %d rows %d phase %d done %d look %s kept %s store %s out %s rest %s\n"
            % (name, answer.number, answer.place, answer.count,
               record.rows, record.phase, record.done,
               checksum(record.look), checksum(record.kept), checksum(self.store),
               written.hex() or "-", checksum(self.output)))

    def do_table(self, text):
        data = b"" if text == "-" else hex_bytes(text)
        if len(data) > 4200 or not text:
            raise Malformed
        self.table = data

    def do_store(self, text):
        self.store = [(2779054080 + i) & MASK for i in range(decimal(text, 0, 5000))]

    def do_out(self, text):
        self.output = bytearray(decimal(text, 0, 1024))

    def do_open(self):
        self.call("open", lambda: call_open(self.table, self.store))

    def do_row(self, *texts):
        if len(texts) > 40:
            raise Malformed
        row = [hex_word(text) for text in texts]
        self.call("row", lambda: call_row(self.table, self.record, self.store,
                                          self.output, row))

    def do_close(self):
        self.call("close", lambda: call_close(self.table, self.record))

    def do_drain(self, text):
        for _ in range(decimal(text, 1, 10 ** 9)):
            self.call("drain", lambda: call_drain(self.table, self.record, self.store,
                                                  self.output))

    def do_set(self, field, *texts):
        record = self.record
        if field in ("look", "kept"):
            stream, number = texts
            numbers = list(getattr(record, field))
            numbers[decimal(stream, 0, STREAMS - 1)] = decimal(number, 0, 65535)
            self.record = record._replace(**{field: tuple(numbers)})
            return
        (number,) = texts
        highest = {"rows": MASK, "phase": 2, "done": 65535}
        if field not in highest:
            raise Malformed
        self.record = record._replace(**{field: decimal(number, 0, highest[field])})

    def line(self, text):
        if text == "" or text.startswith("#"):
            return
        name, *words = text.split(" ")
        action = getattr(self, "do_" + name, None)
        try:
            if action is None:
                raise Malformed
            action(*words)
        except (Malformed, TypeError, ValueError):
            self.out.write("malformed\n")


def run_script(source, out):
    session = Session(out)
    for text in source.read().split("\n"):
        session.line(text)


# ------------------------------------------------------------- self-test

def as_float(bits):
    return struct.unpack("<f", struct.pack("<I", bits))[0]


def as_bits(number):
    """Rounds a binary64 to binary32. For +, -, *, / of two binary32 numbers the
    rounding to binary64 and then to binary32 gives the rounding at once: 53 is
    at least 2 * 24 + 2 (Figueroa); below the normal range sums and products
    are exact in binary64, and a quotient is never within 2^-53 of a midpoint
    without being it."""
    try:
        bits = struct.unpack("<I", struct.pack("<f", number))[0]
    except OverflowError:
        return 0xFF800000 if number < 0 else INFINITY
    return NAN if number != number else bits


def float_div(a, b):
    if b != 0:
        return a / b
    if a == 0 or a != a:
        return float("nan")
    return float("inf") if struct.pack("<d", a)[7] >> 7 == struct.pack("<d", b)[7] >> 7 \
        else float("-inf")


FLOAT_OPERATORS = {
    0x2B: lambda a, b: as_bits(as_float(a) + as_float(b)),
    0x2C: lambda a, b: as_bits(as_float(a) - as_float(b)),
    0x2D: lambda a, b: as_bits(as_float(a) * as_float(b)),
    0x2E: lambda a, b: as_bits(float_div(as_float(a), as_float(b))),
    0x2F: lambda a, b: int(as_float(a) < as_float(b)),
}


def model(table, rows):
    """01: the one model of a whole trace, by recursion over (stream, position).
    No turns, no store: at(v, k) at j is v at j+k, or the default where j+k is
    below 0 or not below N."""
    memo = {}

    def value(stream, position):
        key = stream, position
        if key not in memo:
            if stream < table.inputs:
                word = rows[position][stream]
                if table.types[stream] == LEVEL and as_float(word) != as_float(word):
                    word = NAN
                memo[key] = word
            else:
                memo[key] = meaning(table.equations[stream], position)
        return memo[key]

    def meaning(node, position):
        if isinstance(node, Constant):
            return node.value
        if isinstance(node, Reference):
            if 0 <= position + node.offset < len(rows):
                return value(node.stream, position + node.offset)
            return node.default
        args = [meaning(operand, position) for operand in node.operands]
        function = FLOAT_OPERATORS.get(node.kind, OPERATORS[node.kind][2])
        return function(*args)

    return value


SPECIAL_LEVELS = [0, 0x80000000, 0x3F800000, 0xBF800000, INFINITY, 0xFF800000, NAN,
                  0x7F800001, 0xFFC12345, 1, 0x80000001, 0x007FFFFF, 0x00800000,
                  0x7F7FFFFF, 0xFF7FFFFF, 0x3F800001, 0x33800000, 0x40490FDB]
SPECIAL_WORDS = [0, 1, 2, 7, 2 ** 31 - 1, 2 ** 31, 2 ** 31 + 1, MASK, MASK - 1]


def random_word(rng, kind):
    if kind == FLAG:
        return rng.randrange(2)
    special = SPECIAL_LEVELS if kind == LEVEL else SPECIAL_WORDS
    return rng.choice(special) if rng.random() < 0.6 else rng.randrange(2 ** 32)


def random_reference(rng, types, inputs, streams, stretch):
    stream = rng.choice(streams)
    if rng.random() < 0.35:
        return bytes([0x13, stream])
    low, high = (-stretch, stretch) if stream < inputs else (-stretch, max(1, stretch // 2))
    offset = rng.choice([k for k in range(low, high + 1) if k])
    default = random_word(rng, types[stream])
    return struct.pack("<BBbI", 0x14, stream, offset, default)


def random_expression(rng, types, inputs, wanted, depth, stretch):
    streams = [v for v, kind in enumerate(types) if kind == wanted]
    if depth == 0 or rng.random() < 0.2:
        if streams and rng.random() < 0.85:
            return random_reference(rng, types, inputs, streams, stretch)
        word = random_word(rng, wanted)
        return bytes([0x10 + wanted]) + word.to_bytes(1 if wanted == FLAG else 4, "little")
    kind = rng.choice([k for k, (_, result, _) in OPERATORS.items()
                       if result is WANTED or result == wanted])
    parts = [random_expression(rng, types, inputs, wanted if t is WANTED else t,
                               depth - 1, stretch) for t in OPERATORS[kind][0]]
    return bytes([kind]) + b"".join(parts)


def random_table(rng):
    inputs, outputs = rng.randint(1, 4), rng.randint(1, 6)
    types = [rng.randrange(3) for _ in range(inputs + outputs)]
    stretch = rng.choice([1, 2, 3, 3, 5, 9])
    data = bytes([1, 1, inputs, outputs])
    data += b"".join(bytes([2, kind]) for kind in types[:inputs])
    for kind in types[inputs:]:
        data += bytes([3, kind, rng.randrange(2) if kind == FLAG else 0])
    for stream in range(inputs, inputs + outputs):
        data += bytes([4, stream])
        data += random_expression(rng, types, inputs, types[stream], rng.randint(0, 3), stretch)
    return data


def expected_turn(checked, value, turn, known, store):
    """From the model: the bytes of the turn, and the store after it."""
    after, written = list(store), b""
    for stream in range(len(checked.table.types)):
        position = turn - checked.look[stream]
        if not 0 <= position < known:
            continue
        word = value(stream, position)
        after[checked.base[stream] + position % checked.kept[stream]] = word
        if stream >= checked.table.inputs:
            written += struct.pack("<BBII", 0x50, stream, position, word)
            if stream in checked.table.triggers and word == 1:
                written += struct.pack("<BBI", 0x51, stream, position)
    return written, after


def given_keys(written):
    """(stream, position) of the 50 records in a turn's bytes."""
    keys, place = [], 0
    while place < len(written):
        if written[place] == 0x50:
            keys.append(struct.unpack_from("<BI", written, place + 1))
        place += 10 if written[place] == 0x50 else 6
    return keys


def compare_run(data, checked, rows):
    """Opens, takes rows, closes, drains; every turn against the model."""
    value = model(checked.table, rows)
    store = [0xA5A50000 + i for i in range(checked.words + 3)]
    output = bytearray(checked.room)
    record = call_open(data, store).record
    assert store == [0] * checked.words + [0xA5A50000 + checked.words + i for i in range(3)]
    keys = []

    def turn_agrees(call, turn):
        before = list(store)
        output[:] = b"\xEE" * len(output)
        answer = call()
        written, after = expected_turn(checked, value, turn, len(rows), before)
        assert (answer.number, answer.place, answer.count) == (0, 0, len(written))
        assert output == written + b"\xEE" * (checked.room - len(written))
        assert store == after
        keys.extend(given_keys(written))
        return answer.record

    for turn, row in enumerate(rows):
        record = turn_agrees(lambda: call_row(data, record, store, output, row), turn)
    record = call_close(data, record).record
    turn = len(rows)
    while record.phase == DRAINING:
        record = turn_agrees(lambda: call_drain(data, record, store, output), turn)
        turn += 1
    assert record.phase == OVER
    assert record.done == (checked.closing if rows else 0)
    outputs = range(checked.table.inputs, len(checked.table.types))
    assert sorted(keys) == [(y, p) for y in outputs for p in range(len(rows))]
    return len(keys)


def compare_levels(rng):
    """The exact arithmetic against the binary64 one."""
    pairs = [(a, b) for a in SPECIAL_LEVELS for b in SPECIAL_LEVELS]
    pairs += [(rng.randrange(2 ** 32), rng.randrange(2 ** 32)) for _ in range(20000)]
    pairs += [(rng.randrange(2 ** 32), rng.randrange(2 ** 24)) for _ in range(5000)]
    for a, b in pairs:
        for kind, function in FLOAT_OPERATORS.items():
            x, y = read(LEVEL, a), read(LEVEL, b)
            assert OPERATORS[kind][2](x, y) == function(x, y), (hex(kind), hex(x), hex(y))
    return len(pairs)


def walks(edges, start, most):
    """Every walk from start of at most that many edges: (end, edges, total)."""
    found = [(start, 0, 0)]
    for walk in found:
        if walk[1] < most:
            found += [(v, walk[1] + 1, walk[2] + k) for y, v, k in edges if y == walk[0]]
    return found


def compare_walks(rng, rounds):
    """Refusal 7's place and the look-aheads against all walks of small graphs."""
    loops = 0
    for _ in range(rounds):
        streams = rng.randint(1, 5)
        edges = {(rng.randrange(streams), rng.randrange(streams), rng.randint(-4, 2))
                 for _ in range(rng.randint(0, 5))}
        looping = [v for v in range(streams)
                   if any(end == v and length > 0 and total >= 0
                          for end, length, total in walks(edges, v, streams))]
        assert loop_place(streams, edges) == min(looping, default=None)
        loops += bool(looping)
        if not looping:
            look = [max(total for _, _, total in walks(edges, v, streams))
                    for v in range(streams)]
            assert look_aheads(streams, edges) == look
    return loops


def compare_script(path):
    """Each accepted table of a script, with the rows that follow it, as one run."""
    runs, values = {}, 0
    with open(path) as source:
        for name, *words in (line.split() for line in source if line.strip()):
            if name == "table":
                data = b"" if words == ["-"] else bytes.fromhex(words[0])
                runs.setdefault(data, [])
            elif name == "row" and runs:
                runs[data].append([int(text, 16) for text in words])
    for data, rows in runs.items():
        checked = check(data)
        if isinstance(checked, Refused):
            continue
        good = [row for row in rows if len(row) == checked.table.inputs
                and not bad_flags(checked, row)]
        values += compare_run(data, checked, good)
    return values


def self_test(script):
    rng = random.Random(20010)
    loops = compare_walks(rng, 2000)
    print("self-test: 2000 graphs, %d with a loop of 0 or more, agree with all walks" % loops)
    if script:
        print("self-test: %d values of the script's tables and rows agree with the model"
              % compare_script(script))
    pairs = compare_levels(rng)
    tables = refused = values = deepest = ahead = 0
    while tables < 300:
        data = random_table(rng)
        checked = check(data)
        if isinstance(checked, Refused):
            assert checked.number == 7, (checked.number, checked.place, data.hex())
            refused += 1
            continue
        rows = [[random_word(rng, kind) for kind in checked.table.types[:checked.table.inputs]]
                for _ in range(rng.choice([0, 1, 2, 3, 5, 8, 13, 21]))]
        values += compare_run(data, checked, rows)
        tables += 1
        deepest = max(deepest, checked.closing)
        ahead += checked.closing > 0
    print("self-test: %d level pairs, %d tables (%d with closing turns, most %d; "
          "%d refused by 7 passed over), %d values agree with the model"
          % (pairs, tables, ahead, deepest, refused, values))


def main():
    sys.setrecursionlimit(20000)
    if sys.argv[1:2] == ["--self-test"]:
        self_test(sys.argv[2] if len(sys.argv) > 2 else None)
    else:
        run_script(sys.stdin, sys.stdout)


if __name__ == "__main__":
    main()
