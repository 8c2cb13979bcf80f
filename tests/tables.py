"""Writes crates/test_tables/stdin (tables as lines of hex, each under a comment) and crates/test_tables/stdout
(the check's answers, one line a table). Every answer is reasoned by hand from document 01 and
stands next to its table; nothing here computes an answer."""

import os

# ---- Records, as in document 01, "The table" -------------------------------------------------

TYPES = {"F": 0, "W": 1, "L": 2}
OPERATORS = {
    "not": 0x20, "and": 0x21, "or": 0x22, "if": 0x23, "add": 0x24, "sub": 0x25, "ahead": 0x26,
    "less": 0x27, "same words": 0x28, "same flags": 0x29, "same levels": 0x2A, "add levels": 0x2B,
    "sub levels": 0x2C, "mul": 0x2D, "div": 0x2E, "less levels": 0x2F,
}


def le(number):
    return number.to_bytes(4, "little")


def edition(inputs, outputs, number=1):
    return bytes([0x01, number, inputs, outputs])


def input_of(type_number):
    return bytes([0x02, type_number])


def output_of(type_number, role=0):
    return bytes([0x03, type_number, role])


def equation(stream):
    return bytes([0x04, stream])


def flag(byte):
    return bytes([0x10, byte])


def word(number):
    return bytes([0x11]) + le(number)


def level(bits):
    return bytes([0x12]) + le(bits)


def now(stream):
    return bytes([0x13, stream])


def at(stream, k, default=0):
    return bytes([0x14, stream, k % 256]) + le(default)


def op(name, *operands):
    return bytes([OPERATORS[name]]) + b"".join(operands)


def heading(inputs, outputs):
    """Records 01, 02 and 03. Inputs "WF" are a word and a flag; "F!" is a trigger."""
    outputs = outputs.split()
    records = edition(len(inputs), len(outputs))
    records += b"".join(input_of(TYPES[i]) for i in inputs)
    return records + b"".join(output_of(TYPES[o[0]], int(o[1:] == "!")) for o in outputs)


def table(inputs, outputs, *expressions):
    """A whole table, equations in stream order."""
    records = heading(inputs, outputs)
    for number, expression in enumerate(expressions):
        records += equation(len(inputs) + number) + expression
    return records


def nots(count, inner):
    return bytes([0x20]) * count + inner


def tree(name, leaves):
    """A balanced tree of one operator of two operands over these leaves."""
    if len(leaves) == 1:
        return leaves[0]
    half = len(leaves) // 2
    return op(name, tree(name, leaves[:half]), tree(name, leaves[half:]))


# ---- Cases -----------------------------------------------------------------------------------

CASES = []


def case(comment, table_bytes, answer):
    CASES.append((comment, table_bytes, answer))


def refused(number, place):
    return f"{number} {place}"


def accepted(look, kept, words, room, closing):
    """`look` and `kept` are written out as text, one number a stream."""
    return f"0 0 look {look} kept {kept} words {words} room {room} closing {closing}"


def times(count, number):
    """The same number written `count` times, for the S entries of look and kept."""
    return " ".join([str(number)] * count)


TABLE_A = bytes.fromhex(
    "01010102" "0201" "030100" "030001" "0401" "25" "1300" "1400FF00000000"
    "0402" "26" "1300" "14000107000000")

# Frames that many cases share. With one input and one output the records stand at
# 01: 0, 02: 4, 03: 6, 04: 9, and the expression begins at 11.
ANY = word(0)


def one(expression, inputs="W", outputs="W"):
    return table(inputs, outputs, expression)


def plain(kept="1 1", words=2):
    """One input, one plain output, nothing ahead."""
    return accepted("0 0", kept, words, 10, 0)


def document_examples():
    case("table A (P1)", TABLE_A, accepted("0 0 1", "2 1 1", 4, 26, 1))
    case("P6: y = now(y) is a loop of total 0",
         table("W", "W W", now(1), ANY), refused(7, 1))
    case("P7: y = at(y,1) is a loop of total 1",
         table("W", "W W", at(1, 1), ANY), refused(7, 1))
    case("P8: y = at(y,-1); y keeps 1 + (0+1-0) = 2",
         table("W", "W W", at(1, -1), ANY), accepted("0 0 0", "1 2 1", 4, 20, 0))
    case("P9: y = at(z,1), z = at(y,-1): total 0 over two equations",
         table("W", "W W", at(2, 1), at(1, -1)), refused(7, 1))
    case("P10: y = at(z,1), z = at(y,-2): total -1; y keeps 1 + (0+2-1) = 2",
         table("W", "W W", at(2, 1), at(1, -2)), accepted("0 1 0", "1 2 1", 4, 20, 1))
    thirty_one = [at(i, -128) for i in range(31)]
    case("thirty-one inputs at -128, self at -96: 31*129 + 97 = 4,096 words",
         table("W" * 31, "W", tree("add", thirty_one + [at(31, -96)])),
         accepted(times(32, 0), times(31, 129) + " 97", 4096, 10, 0))
    case("the same with self at -97: 4,097 words",
         table("W" * 31, "W", tree("add", thirty_one + [at(31, -97)])), refused(8, 0))


def lengths():
    case("0 bytes: below the limit", b"", refused(1, 0))
    case("1 byte, the right kind: the length passes, the body is missing", b"\x01", refused(2, 0))
    case("1 byte, a wrong kind: kind comes before the missing body", b"\x02", refused(3, 0))
    # 11 bytes of records before the expression, then n leaves of 2 bytes and n-1 operators:
    # 3n - 1 bytes, so n = 1,362 gives 4,085; the tree is 12 levels deep.
    full = one(tree("and", [now(0)] * 1362), "F", "F")
    case("exactly 4,096 bytes, accepted: 1,362 leaves now(0) under 1,361 ands, 12 levels deep",
         full, plain())
    case("4,097 bytes: one above the limit, tested before the byte left over",
         full + b"\x00", refused(1, 0))
    case("4,096 bytes whose last leaf, at 4,094, names stream 2 = S",
         full[:-1] + b"\x02", refused(4, 4094))
    case("the first 4,095 of them: the last leaf's body is missing", full[:-1], refused(2, 4094))
    case("4,096 bytes: table A and 4,060 more", TABLE_A + bytes(4060), refused(9, 36))
    case("4,097 bytes of zeros: the length is tested before any kind", bytes(4097), refused(1, 0))
    case("4,096 bytes of zeros: kind 00 at 0", bytes(4096), refused(3, 0))


def cut_tables():
    """Table A's records stand at 0, 4, 6, 9, 12, 14, 15, 17, 24, 26, 27 and 29; a cut inside the
    record at p, or just before its kind byte, is refusal 2 at p."""
    places = {1: 0, 2: 0, 3: 0, 4: 4, 5: 4, 6: 6, 7: 6, 8: 6, 9: 9, 10: 9, 11: 9, 12: 12, 13: 12,
              14: 14, 15: 15, 16: 15, 17: 17, 18: 17, 19: 17, 20: 17, 21: 17, 22: 17, 23: 17,
              24: 24, 25: 24, 26: 26, 27: 27, 28: 27, 29: 29, 30: 29, 31: 29, 32: 29, 33: 29,
              34: 29, 35: 29}
    for length, place in places.items():
        case(f"table A cut to {length} bytes", TABLE_A[:length], refused(2, place))
    for length in (11, 12, 13, 14, 15):
        case(f"y = a word constant, cut to {length} bytes: the node at 11 isn't whole",
             one(word(9))[:length], refused(2, 11))
        case(f"y = a level constant, cut to {length} bytes: the node at 11 isn't whole",
             one(level(0x3F800000), "L", "L")[:length], refused(2, 11))
    case("y = a flag constant without its byte",
         one(flag(1), "F", "F")[:12], refused(2, 11))
    case("not with no operand after it: the operand's record would stand at 12",
         one(op("not"), "F", "F"), refused(2, 12))
    case("if with flag and then but no else: 23 at 11, 10 at 12, 11 at 14, else due at 19",
         one(op("if", flag(0), ANY)), refused(2, 19))
    case("the second equation is missing: due at 19, after the first's word constant",
         table("W", "W W", ANY), refused(2, 19))
    case("I = 2 but one input record, then nothing: the second is due at 6",
         edition(2, 1) + input_of(0), refused(2, 6))


def kinds_not_allowed():
    for kind in (0x00, 0x02, 0x03, 0x04, 0x10, 0x60, 0xFF):
        case(f"first record of kind {kind:02x}",
             bytes([kind]) + one(ANY)[1:], refused(3, 0))
    good = one(ANY)
    for kind in (0x00, 0x01, 0x03, 0x04, 0x13):
        case(f"kind {kind:02x} where the input is due, at 4",
             good[:4] + bytes([kind]) + good[5:], refused(3, 4))
    for kind in (0x01, 0x02, 0x04, 0x20):
        case(f"kind {kind:02x} where the output is due, at 6",
             good[:6] + bytes([kind]) + good[7:], refused(3, 6))
    for kind in (0x02, 0x03, 0x05, 0x11):
        case(f"kind {kind:02x} where the equation is due, at 9",
             good[:9] + bytes([kind]) + good[10:], refused(3, 9))
    for kind in (0x00, 0x01, 0x02, 0x03, 0x04, 0x0F, 0x15, 0x1F, 0x30, 0x50, 0x51, 0x60, 0xFF):
        case(f"kind {kind:02x} where the outermost node is due, at 11",
             good[:11] + bytes([kind]) + good[12:], refused(3, 11))
    case("kind 04 where an operand is due: sub at 11, now at 12, 04 at 14",
         one(op("sub", now(0), equation(1))), refused(3, 14))
    case("a third input where I = 2: kind 02 at 8 in the place of the output",
         edition(2, 1) + input_of(1) * 3, refused(3, 8))
    case("a second output where O = 1: kind 03 at 9 in the place of the equation",
         edition(1, 1) + input_of(1) + output_of(1) * 2, refused(3, 9))
    case("an equation's expression twice: the next equation is due at 16",
         heading("W", "W W") + equation(1) + now(0) + now(0), refused(3, 16))


def fields():
    rest = one(ANY)[4:]
    case("edition 0", edition(1, 1, 0) + rest, refused(4, 0))
    case("edition 1, I = 1, O = 1: the lowest numbers", edition(1, 1, 1) + rest, plain())
    case("edition 2", edition(1, 1, 2) + rest, refused(4, 0))
    case("edition 255", edition(1, 1, 255) + rest, refused(4, 0))
    case("I = 0", edition(0, 1) + rest, refused(4, 0))
    case("O = 0", edition(1, 0) + rest, refused(4, 0))
    case("I = 0 and O = 0", edition(0, 0) + rest, refused(4, 0))
    case("I = 32, O = 0: S is within its limit, O isn't", edition(32, 0) + rest, refused(4, 0))
    case("S = 32: 31 inputs, 1 output", table("W" * 31, "W", now(30)),
         accepted(times(32, 0), times(32, 1), 32, 10, 0))
    case("S = 32: 1 input, 31 outputs", table("W", "W " * 31, *[now(0)] * 31),
         accepted(times(32, 0), times(32, 1), 32, 310, 0))
    case("S = 32: 16 and 16", table("F" * 16, "F! " * 16, *[now(0)] * 16),
         accepted(times(32, 0), times(32, 1), 32, 256, 0))
    case("S = 33: 32 inputs, 1 output", table("W" * 32, "W", ANY), refused(4, 0))
    case("S = 33: 1 input, 32 outputs", table("W", "W " * 32, *[ANY] * 32), refused(4, 0))
    case("I = 255, O = 2: 257 streams, 1 in a byte", edition(255, 2) + rest, refused(4, 0))
    case("I = 255, O = 255", edition(255, 255) + rest, refused(4, 0))
    for number in (3, 255):
        case(f"input of type {number}",
             edition(1, 1) + input_of(number) + output_of(1) + equation(1) + ANY, refused(4, 4))
        case(f"output of type {number}",
             edition(1, 1) + input_of(1) + output_of(number) + equation(1) + ANY, refused(4, 6))
    case("the second input of type 3, at 6",
         edition(2, 1) + input_of(1) + input_of(3) + output_of(1) + equation(2) + ANY,
         refused(4, 6))
    case("input and output of type 0", one(now(0), "F", "F"), plain())
    case("input and output of type 2", one(now(0), "L", "L"), plain())
    case("role 1: a trigger, 10 + 6 bytes of room", one(now(0), "F", "F!"),
         accepted("0 0", "1 1", 2, 16, 0))
    case("role 2", edition(1, 1) + input_of(0) + output_of(0, 2) + equation(1) + now(0),
         refused(4, 6))
    case("role 255", edition(1, 1) + input_of(0) + output_of(0, 255) + equation(1) + now(0),
         refused(4, 6))
    case("a trigger of type word", one(ANY, "W", "W!"), refused(4, 6))
    case("a trigger of type level", one(level(0), "W", "L!"), refused(4, 6))
    case("a trigger of type 3 (two rules of one field record, one number)",
         edition(1, 1) + input_of(0) + output_of(3, 1) + equation(1) + now(0), refused(4, 6))
    case("the second of two outputs, at 9, a trigger of type word",
         table("W", "F! W!", flag(0), ANY), refused(4, 9))
    for stream in (0, 2, 3, 255):
        case(f"the first equation, at 12, is of stream {stream}, not 1",
             heading("W", "W W") + equation(stream) + ANY + equation(2) + ANY, refused(4, 12))
    for stream in (0, 1, 3):
        case(f"the second equation, at 19, is of stream {stream}, not 2",
             heading("W", "W W") + equation(1) + ANY + equation(stream) + ANY, refused(4, 19))
    case("now of stream S-1 = 2, by stream 1",
         table("W", "W W", now(2), now(0)), accepted("0 0 0", "1 1 1", 3, 20, 0))
    case("now of stream S = 3, at 14", table("W", "W W", now(3), now(0)), refused(4, 14))
    case("now of stream 255, at 14", table("W", "W W", now(255), now(0)), refused(4, 14))
    case("at of stream S-1, k = -1: 1 + (0+1-0) = 2 kept",
         table("W", "W W", at(2, -1), now(0)), accepted("0 0 0", "1 1 2", 4, 20, 0))
    case("at of stream S = 3, at 14", table("W", "W W", at(3, -1), now(0)), refused(4, 14))
    case("at of stream 255, at 14", table("W", "W W", at(255, -1), now(0)), refused(4, 14))
    case("k = 0", one(at(0, 0)), refused(4, 11))
    case("k = -1", one(at(0, -1)), plain("2 1", 3))
    case("k = 1: look-ahead 1, kept 1 + (1-1-0) = 1", one(at(0, 1)),
         accepted("0 1", "1 1", 2, 10, 1))
    case("k = -128", one(at(0, -128)), plain("129 1", 130))
    case("k = 127", one(at(0, 127)), accepted("0 127", "1 1", 2, 10, 127))
    case("k = -127", one(at(0, -127)), plain("128 1", 129))
    case("flag constant 0", one(flag(0), "F", "F"), plain())
    case("flag constant 1", one(flag(1), "F", "F"), plain())
    case("flag constant 2", one(flag(2), "F", "F"), refused(4, 11))
    case("flag constant 255", one(flag(255), "F", "F"), refused(4, 11))
    case("flag default 0", one(at(0, -1, 0), "F", "F"), plain("2 1", 3))
    case("flag default 1", one(at(0, -1, 1), "F", "F"), plain("2 1", 3))
    for default in (2, 0x100, 0x101, 0x10000, 0x01000000, 0x80000000, 0xFFFFFFFF):
        case(f"flag default {default:08x}: the whole word is tested",
             one(at(0, -1, default), "F", "F"), refused(4, 11))
    case("flag default 2 of a flag output, at 11",
         one(at(1, -1, 2), "W", "F"), refused(4, 11))
    case("word default ffffffff: no rule for words",
         one(at(0, -1, 0xFFFFFFFF)), plain("2 1", 3))
    for bits in (0x7FC00000, 0x7F800001, 0xFFFFFFFF, 0xFF800001):
        case(f"level constant {bits:08x}, a NaN: read as 7fc00000, no refusal",
             one(level(bits), "L", "L"), plain())
        case(f"level default {bits:08x}, a NaN: read as 7fc00000, no refusal",
             one(at(0, -1, bits), "L", "L"), plain("2 1", 3))
    case("level constant infinity", one(level(0x7F800000), "L", "L"), plain())


def types():
    # Three inputs of types flag 0, word 1, level 2; the output is stream 3, its record at 10, its
    # equation at 13; the outermost node at 15, a first operand at 16, a second (after a now) at 18.
    f, w, l = now(0), now(1), now(2)
    flags = ("and", "or", "same flags")
    words = ("ahead", "less", "same words")
    levels = ("same levels", "less levels")
    case("all sixteen operators, each an output of its own with its right types",
         table("FWL", "F F F W W W F F F F F L L L L F",
               op("not", f), op("and", f, f), op("or", f, f), op("if", f, w, w),
               op("add", w, w), op("sub", w, w), op("ahead", w, w), op("less", w, w),
               op("same words", w, w), op("same flags", f, f), op("same levels", l, l),
               op("add levels", l, l), op("sub levels", l, l), op("mul", l, l), op("div", l, l),
               op("less levels", l, l)),
         accepted(times(19, 0), times(19, 1), 19, 160, 0))
    case("if of flags and if of levels", table("FWL", "F L", op("if", f, f, f), op("if", f, l, l)),
         accepted(times(5, 0), times(5, 1), 5, 20, 0))
    for other in ("W", "L"):
        case(f"not gives a flag, wanted {other}", table("FWL", other, op("not", f)), refused(5, 15))
        for name in flags:
            case(f"{name} gives a flag, wanted {other}",
                 table("FWL", other, op(name, f, f)), refused(5, 15))
        for name in words:
            case(f"{name} gives a flag, wanted {other}",
                 table("FWL", other, op(name, w, w)), refused(5, 15))
        for name in levels:
            case(f"{name} gives a flag, wanted {other}",
                 table("FWL", other, op(name, l, l)), refused(5, 15))
    for name in ("add", "sub"):
        case(f"{name} gives a word, wanted F", table("FWL", "F", op(name, w, w)), refused(5, 15))
        case(f"{name} gives a word, wanted L", table("FWL", "L", op(name, w, w)), refused(5, 15))
    for name in ("add levels", "sub levels", "mul", "div"):
        case(f"{name} gives a level, wanted F", table("FWL", "F", op(name, l, l)), refused(5, 15))
        case(f"{name} gives a level, wanted W", table("FWL", "W", op(name, l, l)), refused(5, 15))
    case("not of a word", table("FWL", "F", op("not", w)), refused(5, 16))
    case("not of a level", table("FWL", "F", op("not", l)), refused(5, 16))
    for name in flags:
        case(f"{name}: first operand a word", table("FWL", "F", op(name, w, f)), refused(5, 16))
        case(f"{name}: second operand a level", table("FWL", "F", op(name, f, l)), refused(5, 18))
    for name in words:
        case(f"{name}: first operand a flag", table("FWL", "F", op(name, f, w)), refused(5, 16))
        case(f"{name}: second operand a level", table("FWL", "F", op(name, w, l)), refused(5, 18))
    for name in levels:
        case(f"{name}: first operand a word", table("FWL", "F", op(name, w, l)), refused(5, 16))
        case(f"{name}: second operand a flag", table("FWL", "F", op(name, l, f)), refused(5, 18))
    for name in ("add", "sub"):
        case(f"{name}: first operand a level", table("FWL", "W", op(name, l, w)), refused(5, 16))
        case(f"{name}: second operand a flag", table("FWL", "W", op(name, w, f)), refused(5, 18))
    for name in ("add levels", "sub levels", "mul", "div"):
        case(f"{name}: first operand a word", table("FWL", "L", op(name, w, l)), refused(5, 16))
        case(f"{name}: second operand a flag", table("FWL", "L", op(name, l, f)), refused(5, 18))
    case("if: a word where the flag is due", table("FWL", "W", op("if", w, w, w)), refused(5, 16))
    case("if: then isn't of the wanted type", table("FWL", "W", op("if", f, f, w)), refused(5, 18))
    case("if: else isn't of the wanted type", table("FWL", "W", op("if", f, w, l)), refused(5, 20))
    case("if of words under an add of levels: the if takes the wanted type, its then at 19 doesn't",
         table("FWL", "L", op("add levels", op("if", f, w, w), l)), refused(5, 19))
    case("flag constant, wanted word", one(flag(1)), refused(5, 11))
    case("word constant, wanted flag", one(word(1), "F", "F"), refused(5, 11))
    case("word constant, wanted level", one(word(1), "L", "L"), refused(5, 11))
    case("level constant, wanted word", one(level(1)), refused(5, 11))
    case("now of a flag, wanted word", one(now(0), "F", "W"), refused(5, 11))
    case("not of a later output that is a word: the types of all streams are known by then",
         table("F", "F W", op("not", now(2)), ANY), refused(5, 15))
    case("at of a level, wanted word", one(at(0, -1), "L", "W"), refused(5, 11))
    case("at of a word, wanted level", one(at(0, 1), "W", "L"), refused(5, 11))


def levels():
    # One flag input, one flag output: the chain of nots begins at 11, so node n stands at 10 + n.
    case("16 levels: 15 nots and a constant",
         one(nots(15, flag(1)), "F", "F"), plain())
    case("17 levels: 16 nots and a constant at 27",
         one(nots(16, flag(1)), "F", "F"), refused(6, 27))
    case("17 levels: the node at level 17 is a now",
         one(nots(16, now(0)), "F", "F"), refused(6, 27))
    case("17 levels: the node at level 17 is an at",
         one(nots(16, at(0, -1)), "F", "F"), refused(6, 27))
    case("17 levels and more: the node at level 17 is an operator, its operand isn't reached",
         one(nots(17, flag(1)), "F", "F"), refused(6, 27))
    case("4,085 nots: level 17 comes first", one(nots(4085, b""), "F", "F"), refused(6, 27))
    case("16 levels in both operands of an and: siblings don't add up",
         one(op("and", nots(14, flag(1)), nots(14, now(0))), "F", "F"), plain())
    case("level 17 in the second operand: and at 11, now at 12, 15 nots from 14, level 17 at 29",
         one(op("and", now(0), nots(15, flag(1))), "F", "F"), refused(6, 29))
    case("level 17 in the else: if at 11, flag at 12, then at 14, 15 nots from 16, level 17 at 31",
         one(op("if", now(0), now(0), nots(15, flag(1))), "F", "F"), refused(6, 31))
    case("16 levels in each of two equations: each outermost node is level 1",
         table("F", "F F", nots(15, flag(1)), nots(15, flag(0))),
         accepted("0 0 0", "1 1 1", 3, 20, 0))
    deep_add = op("add", now(0), ANY)
    for _ in range(13):
        deep_add = op("add", now(0), deep_add)
    case("14 adds one in the other: 15 levels of words",
         one(deep_add), plain())
    case("16 adds: nodes add, now by turns from 11; level 17 is the second operand of the 16th add",
         # add and now take 3 bytes a level; the 16th add is at 11 + 45 = 56, its now (level 17)
         # comes first, at 57.
         one(op("add", now(0), op("add", now(0), deep_add))), refused(6, 57))


def order_of_faults():
    start = one(nots(16, b""), "F", "F")
    case("level 17 and the kind byte missing: 2", start, refused(2, 27))
    case("level 17 and a kind not allowed: 3", start + b"\x30", refused(3, 27))
    case("level 17 and the body missing: 2", start + b"\x10", refused(2, 27))
    case("level 17 and an at's body cut: 2", start + at(0, -1)[:-1], refused(2, 27))
    case("level 17 and a field fault: 6", start + flag(2), refused(6, 27))
    case("level 17 and a stream not below S: 6", start + now(9), refused(6, 27))
    case("level 17 and k = 0: 6", start + at(0, 0), refused(6, 27))
    case("level 17 and a wrong type: 6", start + word(1), refused(6, 27))
    case("field fault and wrong type, constant: flag constant 2, wanted word: 4",
         one(flag(2)), refused(4, 11))
    case("field fault and wrong type: at(flag stream, -1, default 2), wanted word: 4",
         one(at(0, -1, 2), "F", "W"), refused(4, 11))
    case("field fault and wrong type: at(flag stream, 0, default 0), wanted word: 4",
         one(at(0, 0, 0), "F", "W"), refused(4, 11))
    case("no field fault, wrong type: at(word stream, -1, default 2), wanted flag: 5, since the "
         "default is of the stream's type",
         one(at(0, -1, 2), "W", "F"), refused(5, 11))
    case("wrong kind and missing body, input's place: 3", edition(1, 1) + b"\x03", refused(3, 4))
    case("wrong kind and missing body, expression: 3",
         heading("W", "W") + equation(1) + b"\x01", refused(3, 11))
    case("missing body where a field would be wrong: edition 2 with no O: 2",
         b"\x01\x02\x01", refused(2, 0))
    case("equation out of order with no expression after it: 4",
         heading("W", "W") + equation(0), refused(4, 9))
    case("the first fault counts: input of type 3, then a wrong kind: 4 at 4",
         edition(1, 1) + input_of(3) + b"\x77", refused(4, 4))
    case("the first fault counts: wrong type at 11 before a byte left over",
         one(flag(1)) + b"\x00", refused(5, 11))
    case("an operator's wrong type comes before its operands' faults",
         one(op("and", flag(2), flag(2))), refused(5, 11))
    case("an operand's fault before the level-17 node of its sibling: or at 11, flag 2 at 12",
         one(op("or", flag(2), nots(15, flag(1))), "F", "F"), refused(4, 12))
    case("a loop of total 0 and a byte left over: 9 before 7",
         one(now(1)) + b"\x00", refused(9, 13))
    case("a loop of total 0 in a cut table: 2 before 7",
         table("W", "W W", now(1), word(1)[:3]), refused(2, 18))
    too_many = tree("add", [at(i, -128) for i in range(31)] + [at(31, -97)])
    # 4 + 31*2 + 3 + 2 = 71 bytes, then 32 nodes of 7 and 31 of 1: 255; 326 in all.
    case("4,097 words and a byte left over: 9 before 8",
         table("W" * 31, "W", too_many) + b"\x00", refused(9, 326))
    case("over 4,096 words and a loop: 7 before 8",
         table("W" * 31, "W", tree("add", [at(i, -128) for i in range(31)]
                                   + [op("add", at(31, -97), now(31))])), refused(7, 31))


def left_over():
    case("table A and one byte 00", TABLE_A + b"\x00", refused(9, 36))
    case("table A and one byte 04, the kind of an equation", TABLE_A + b"\x04", refused(9, 36))
    case("table A and a whole further equation", TABLE_A + equation(3) + flag(1), refused(9, 36))
    case("table A twice", TABLE_A + TABLE_A, refused(9, 36))
    case("an if with three operands of one node too many: the fourth, at 18, is left over",
         one(op("if", now(0), now(0), now(0)) + now(0), "F", "F"), refused(9, 18))


def loops():
    case("self at 127", one(at(1, 127)), refused(7, 1))
    case("self at -128: kept 1 + 128", one(at(1, -128)), plain("1 129", 130))
    case("self at -1 and at 1: one of the two is enough",
         one(op("add", at(1, -1), at(1, 1))), refused(7, 1))
    case("self now, in a trigger", one(op("not", now(1)), "F", "F!"), refused(7, 1))
    case("two streams, now and now: total 0", table("W", "W W", now(2), now(1)), refused(7, 1))
    case("two streams, 5 and -6: total -1; look 5 and 0; 1 keeps 1 + (0+6-5)",
         table("W", "W W", at(2, 5), at(1, -6)), accepted("0 5 0", "1 2 1", 4, 20, 5))
    case("two streams, 5 and -5: total 0", table("W", "W W", at(2, 5), at(1, -5)), refused(7, 1))
    case("two streams, -5 and 6: total 1", table("W", "W W", at(2, -5), at(1, 6)), refused(7, 1))
    case("loop only through the else of an if",
         one(op("if", flag(1), ANY, now(1))), refused(7, 1))
    case("loop only through the then of an if whose flag is always false",
         one(op("if", flag(0), now(1), ANY)), refused(7, 1))
    case("loop only through the flag of an if",
         one(op("if", now(1), flag(0), flag(1)), "F", "F"), refused(7, 1))
    case("loop only through the else, at -1: passes; 1 keeps 2",
         one(op("if", flag(1), ANY, at(1, -1))), plain("1 2", 3))
    case("loop through the innermost of nested operands",
         one(op("add", ANY, op("sub", now(0), op("add", ANY, now(1))))), refused(7, 1))
    case("the lowest stream isn't on the loop: 1 constant, 2 and 3 read each other now",
         table("W", "W W W", ANY, now(3), now(2)), refused(7, 2))
    case("1 leads into the loop of 2 on itself but no walk leads back to 1",
         table("W", "W W", now(2), now(2)), refused(7, 2))
    case("1 leads into the loop of 2 and 3 (5 and -5) but not back",
         table("W", "W W W", now(2), at(3, 5), at(2, -5)), refused(7, 2))
    case("two loops apart, {3,4} and {2,5}: the lowest stream of either is 2",
         table("W", "W W W W W", ANY, now(5), now(4), now(3), now(2)), refused(7, 2))
    case("the loop is found last and its lowest is the last but one: {4,5}",
         table("W", "W W W W W", now(0), now(1), now(2), now(5), at(4, 1)), refused(7, 4))
    case("several edges between two streams: the largest counts, 3 - 3 = 0",
         table("W", "W W", op("add", at(2, -3), at(2, 3)), at(1, -3)), refused(7, 1))
    case("the same with -4: total -1; 2 keeps 1 + (3+3-0), 1 keeps 1 + (0+4-3)",
         table("W", "W W", op("add", at(2, -3), at(2, 3)), at(1, -4)),
         accepted("0 3 0", "1 2 7", 10, 20, 3))

    # Loops that visit a stream twice: 1 reads 2 at -5, 2 reads 1 at -5 and itself at a positive
    # k. A walk 1, 2, .., 2, 1 with n turns on 2 has n + 2 edges and totals k*n - 10.
    def twice(k, back, extra):
        return table("W", "W W" + " W" * extra, at(2, -5), op("add", at(1, back), at(2, k)),
                     *[ANY] * extra)
    case("exactly S = 3 edges: 1,2,2,1 totals 10 - 10 = 0", twice(10, -5, 0), refused(7, 1))
    case("one less: 1,2,2,1 totals -1, a second turn would be 4 edges; 2 alone totals 9",
         twice(9, -5, 0), refused(7, 2))
    case("k = 3, S = 3: at most 1 turn, 3 - 10 < 0; place 2", twice(3, -5, 0), refused(7, 2))
    case("k = 3, S = 5: at most 3 turns, 9 - 10 < 0; place 2", twice(3, -5, 2), refused(7, 2))
    case("k = 3, S = 6: 4 turns, 12 - 10 >= 0; place 1", twice(3, -5, 3), refused(7, 1))
    case("k = 3, back at -4, S = 4: 2 turns, 6 - 9 < 0; place 2", twice(3, -4, 1), refused(7, 2))
    case("k = 3, back at -4, S = 5: 3 turns, 9 - 9 = 0; place 1", twice(3, -4, 2), refused(7, 1))
    case("k = 1, S = 32: 30 turns, 30 - 10 >= 0; place 1", twice(1, -5, 29), refused(7, 1))
    case("k = 1, back at -25, S = 32: 30 turns in 32 edges, 30 - 30 = 0; place 1",
         twice(1, -25, 29), refused(7, 1))
    case("k = 1, back at -26, S = 32: 30 - 31 < 0; place 2", twice(1, -26, 29), refused(7, 2))
    case("self now on 2 doesn't help 1: any number of turns totals -10; place 2",
         table("W", "W W", at(2, -5), op("add", at(1, -5), now(2))), refused(7, 2))
    case("1,2,3,2,1 totals -5+5+5-5 = 0 in S = 4 edges; place 1",
         table("W", "W W W", at(2, -5), op("add", at(1, -5), at(3, 5)), at(2, 5)), refused(7, 1))
    case("1,2,3,2,1 totals -5 in S = 4 edges, 6 edges would do; place 2",
         table("W", "W W W", at(2, -10), op("add", at(1, -5), at(3, 5)), at(2, 5)), refused(7, 2))
    case("the same with two more outputs, S = 6: 1,2,3,2,3,2,1 totals 5; place 1",
         table("W", "W W W W W", at(2, -10), op("add", at(1, -5), at(3, 5)), at(2, 5), ANY, ANY),
         refused(7, 1))

    # Long loops. A ring: stream n reads n+1 at -1 for n = 1 to 30, and 31 reads 1 at k.
    def ring(k):
        return table("W", "W " * 31, *[at(n + 1, -1) for n in range(1, 31)], at(1, k))
    case("ring of 31 streams, total -30 + 30 = 0", ring(30), refused(7, 1))
    case("ring of 31 streams, total -1: look-ahead of n is n-2 (0 for 1); 2 keeps 1 + (0+1-0)",
         ring(29),
         accepted("0 0 0 1 2 3 4 5 6 7 8 9 10 11 12 13 14 15 16 17 18 19 20 21 22 23 24 25 26 27 "
                  "28 29", "1 1 2 " + times(29, 1), 33, 310, 29))
    case("long loop 20 to 31 of total 0 read the other way round; 1 to 19 lead into it; place 20",
         table("W", "W " * 31, *[now(n + 1) for n in range(1, 20)], now(31),
               *[now(n - 1) for n in range(21, 32)]), refused(7, 20))
    case("long positive loop 20 to 31, 127 each; 1 to 19 are led to by it and don't lead back",
         table("W", "W " * 31, *[now(0) for n in range(1, 20)],
               *[op("add", at(n + 1, 127), now(n - 1)) for n in range(20, 31)], at(20, 127)),
         refused(7, 20))


def announced():
    case("an input that nothing reads keeps 1", table("WW", "W", now(0)),
         accepted("0 0 0", "1 1 1", 3, 10, 0))
    case("two readers of 0, at -3 and -7: the deeper counts, 1 + 7",
         table("W", "W W", at(0, -3), at(0, -7)), accepted("0 0 0", "8 1 1", 10, 20, 0))
    case("one output reads 0 now and at 5: look-ahead 5, 0 keeps 1 + (5-0-0)",
         one(op("add", now(0), at(0, 5))), accepted("0 5", "6 1", 7, 10, 5))
    case("one output reads 0 at -2 and 5: 0 keeps 1 + (5+2-0)",
         one(op("add", at(0, -2), at(0, 5))), accepted("0 5", "8 1", 9, 10, 5))
    case("both branches of an if: at 3 and 9; look-ahead 9, 0 keeps 1 + (9-3-0)",
         table("WF", "W", op("if", flag(1), at(0, 3), at(0, 9))),
         accepted("0 0 9", "7 1 1", 9, 10, 9))
    case("the flag of an if counts too: at(1,4); 0 read now keeps 1 + 4",
         table("WF", "W", op("if", at(1, 4), now(0), ANY)), accepted("0 0 4", "5 1 1", 7, 10, 4))
    case("2 reads 1 at 3, 1 reads 0 at -5: look-ahead 3 and not -2; 0 keeps 6",
         table("W", "W W", at(0, -5), at(1, 3)), accepted("0 0 3", "6 1 1", 8, 20, 3))
    case("against stream order: 1 reads 2 at 4, 2 reads 0 at 6: look-ahead 10 and 6",
         table("W", "W W", at(2, 4), at(0, 6)), accepted("0 10 6", "1 1 1", 3, 20, 10))
    case("a chain of nows against stream order: 1 reads 2, 2 reads 3, 3 reads 0",
         table("W", "W W W", now(2), now(3), now(0)), accepted("0 0 0 0", "1 1 1 1", 4, 30, 0))
    case("a reader with look-ahead of its own: 1 = at(0,10); 2 = add(now(1), now(0)) has 10 too; "
         "0 keeps 1 + 10, 1 keeps 1 + (10-0-10)",
         table("W", "W W", at(0, 10), op("add", now(1), now(0))),
         accepted("0 10 10", "11 1 1", 13, 20, 10))
    case("2 reads 1 at -4 where 1 has look-ahead 10: -4 + 10 = 6 is 2's; 1 keeps 1 + (6+4-10)",
         table("W", "W W", at(0, 10), at(1, -4)), accepted("0 10 6", "1 1 1", 3, 20, 10))
    case("2 reads 1 at -12 where 1 has look-ahead 10: 2's is 0; 1 keeps 1 + (0+12-10)",
         table("W", "W W", at(0, 10), at(1, -12)), accepted("0 10 0", "1 3 1", 5, 20, 10))
    case("a loop of total -2 with a positive edge: 1 = at(2,5), 2 = at(1,-7); 1 keeps 1 + (0+7-5)",
         table("W", "W W", at(2, 5), at(1, -7)), accepted("0 5 0", "1 3 1", 5, 20, 5))
    case("room: three outputs, two of them triggers, 30 + 12",
         table("F", "F! F F!", now(0), now(0), now(0)), accepted("0 0 0 0", "1 1 1 1", 4, 42, 0))
    case("room: 31 triggers, 310 + 186", table("F", "F! " * 31, *[now(0)] * 31),
         accepted(times(32, 0), times(32, 1), 32, 496, 0))
    chain = [at(n, 127) for n in range(30)]
    ahead = ("0 127 254 381 508 635 762 889 1016 1143 1270 1397 1524 1651 1778 1905 2032 2159 2286 "
             "2413 2540 2667 2794 2921 3048 3175 3302 3429 3556 3683 3810 3937")
    case("a chain of 31 steps of 127: look-ahead 3,937",
         table("W", "W " * 31, *chain, at(30, 127)),
         accepted(ahead, times(32, 1), 32, 310, 3937))
    case("the same, and 31 also reads 0 at -127: 0 keeps 1 + (3,937+127) = 4,065; 4,096 words",
         table("W", "W " * 31, *chain, op("add", at(30, 127), at(0, -127))),
         accepted(ahead, "4065 " + times(31, 1), 4096, 310, 3937))
    case("the same at -128: 4,097 words",
         table("W", "W " * 31, *chain, op("add", at(30, 127), at(0, -128))), refused(8, 0))
    case("the chain against stream order: 1 is the highest, 31 reads 0 at 127",
         table("W", "W " * 31, *[at(n + 1, 127) for n in range(1, 31)], at(0, 127)),
         accepted("0 3937 3810 3683 3556 3429 3302 3175 3048 2921 2794 2667 2540 2413 2286 2159 "
                  "2032 1905 1778 1651 1524 1397 1270 1143 1016 889 762 635 508 381 254 127",
                  times(32, 1), 32, 310, 3937))
    case("31 also reads the whole chain now: n keeps 1 + (3,937 - 127n), far over 4,096",
         table("W", "W " * 31, *chain,
               op("add", at(30, 127), tree("add", [now(n) for n in range(30)]))), refused(8, 0))


def write(name, lines):
    with open(os.path.join(os.path.dirname(os.path.abspath(__file__)), "..", "crates", "tables", name), "w") as file:
        file.write("".join(line + "\n" for line in lines))


def main():
    for section in (document_examples, lengths, cut_tables, kinds_not_allowed, fields, types,
                    levels, order_of_faults, left_over, loops, announced):
        section()
    tables = []
    for comment, table_bytes, answer in CASES:
        tables += [f"# {comment}: {answer.split(' look')[0]}", table_bytes.hex() or "-"]
    write("stdin", tables)
    write("stdout", [answer for _, _, answer in CASES])


main()
