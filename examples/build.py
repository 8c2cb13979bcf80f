"""Builds each NAME.bin beside this script from NAME.listing: head 60, table length, table, rows.

A listing has the table's bytes in hex up to the line `rows`, then one row a line: a word as a
decimal number or 0x.., a level as a number with a point or as its bits in 0x... `#` starts a
comment. Nothing is checked: an example may be faulty on purpose."""

import pathlib
import struct


def without_comments(text):
    return [line.split("#")[0].split() for line in text.splitlines()]


def word(token):
    if "." in token:
        return struct.pack("<f", float(token))
    return struct.pack("<I", int(token, 0))


def input_of(listing):
    lines = [tokens for tokens in without_comments(listing) if tokens]
    rows_at = lines.index(["rows"])
    table = bytes(int(token, 16) for tokens in lines[:rows_at] for token in tokens)
    rows = b"".join(word(token) for tokens in lines[rows_at + 1:] for token in tokens)
    return b"\x60" + struct.pack("<H", len(table)) + table + rows


for path in pathlib.Path(__file__).parent.glob("*.listing"):
    path.with_suffix(".bin").write_bytes(input_of(path.read_text()))
