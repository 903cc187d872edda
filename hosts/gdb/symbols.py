#!/usr/bin/env python3
"""Writes a listing's program, symbols and lines as an ELF file for Z80, which gdb's `file` and `symbol-file` take.

    hosts/gdb/symbols.py LISTING [--source NAME] -o FILE

LISTING is what `pacboard asm` writes, and NAME where gdb looks for its source: where it isn't given, the listing's own name with .asm at the end. A
symbol from 0 to 3FFFH is a place of the program; other numbers are there as absolute ones. Lines are told as DWARF 2 has them.
"""
import argparse
import pathlib
import re
import struct
import sys
from typing import NamedTuple

MACHINE, Z80, EXECUTABLE, LITTLE, BITS_32 = 220, 1, 2, 1, 1  # of ELF: processors of Z80's kind, and that one
PROGBITS, SYMTAB, STRTAB, ABSOLUTE = 1, 2, 3, 0xFFF1
ROM_SIZE, CODE_AT = 0x4000, 52 + 32  # bytes, and the program's place in the file
ROW = re.compile(r"(\d{5}|     ) ([0-9A-F]{4}) ((?:[0-9A-F]{2}){1,4}) *(?: |$)")
STANDARD = bytes([0, 1, 1, 1, 1, 0, 0, 0, 1])  # of DWARF: how many numbers are after each of the operations 1 to 9 of a table of lines
SET_ADDRESS, ADVANCE_LINE, COPY, END = b"\0\5\2", b"\3", b"\1", b"\0\1\1"  # operations
UNIT, NAME, LINES, LOW, HIGH, LANGUAGE, ASSEMBLER = 0x11, 3, 0x10, 0x11, 0x12, 0x13, 0x8001  # what is told of a source
TEXT, ADDRESS, TWO_BYTES, FOUR_BYTES = 8, 1, 5, 6  # and how


class Row(NamedTuple):
    """The bytes of a line of the source."""

    line: int
    at: int
    content: bytes


def rows_of(listing: str) -> list[Row]:
    """The lines that have bytes."""
    rows = list[Row]()
    for row in listing.rpartition("\nSYMBOLS\n")[0].split("\n"):
        if found := ROW.match(row[:20].ljust(21)):
            content = bytes.fromhex(found[3])
            if found[1].isspace() and rows:
                rows[-1] = rows[-1]._replace(content=rows[-1].content + content)
            else:
                rows.append(Row(int(found[1].strip() or 1), int(found[2], 16), content))
    return rows


def program_of(rows: list[Row]) -> bytes:
    """The program's bytes."""
    rom = bytearray(ROM_SIZE)
    for row in rows:
        rom[row.at : row.at + len(row.content)] = row.content
    return bytes(rom)


def symbols_of(listing: str) -> dict[str, int]:
    """The symbols, in their order."""
    head, mark, rows = ("\n" + listing).rpartition("\nSYMBOLS\n")
    if not mark or not all(re.fullmatch(r"\w+ -?\d+", row) for row in rows.splitlines()):
        raise ValueError("this is no listing: no line SYMBOLS with names and numbers after it")
    return {name: int(value) for name, value in (row.split(" ") for row in rows.splitlines())}


def signed(number: int) -> bytes:
    """A number that isn't below 0 in LEB128 with a sign."""
    return bytes([number]) if number < 0x40 else bytes([number & 0x7F | 0x80]) + signed(number >> 7)


def sized(content: bytes) -> bytes:
    """Bytes after their number."""
    return struct.pack("<I", len(content)) + content


def lines_of(rows: list[Row], source: bytes) -> bytes:
    """The table of lines: a sequence for all rows that follow one another in memory."""
    head = struct.pack("<5B", 1, 1, 0, 1, 1 + len(STANDARD)) + STANDARD + b"\0" + source + b"\0" * 5
    table, line, end = b"", 1, -1
    for row in rows:
        if row.at != end:
            table, line = table + (SET_ADDRESS + struct.pack("<I", end) + END if table else b""), 1
        table += SET_ADDRESS + struct.pack("<I", row.at) + ADVANCE_LINE + signed(row.line - line) + COPY
        line, end = row.line, row.at + len(row.content)
    return sized(struct.pack("<H", 2) + sized(head) + table + (SET_ADDRESS + struct.pack("<I", end) + END if table else b""))


def source_of(source: bytes) -> tuple[bytes, bytes]:
    """What is told of the source, and the form in which it is told."""
    form = bytes([1, UNIT, 0, NAME, TEXT, LINES, FOUR_BYTES, LOW, ADDRESS, HIGH, ADDRESS, LANGUAGE, TWO_BYTES, 0, 0, 0])
    told = struct.pack("<HIBB", 2, 0, 4, 1) + source + b"\0" + struct.pack("<IIIH", 0, 0, ROM_SIZE, ASSEMBLER)
    return sized(told), form


def elf_of(listing: str, source: bytes) -> bytes:
    """The ELF file."""
    rows, names, entries = rows_of(listing), b"\0", bytes(16)
    for name, value in symbols_of(listing).items():
        entries += struct.pack("<IIIBBH", len(names), value & 0xFFFFFFFF, 0, 0x10, 0, 1 if 0 <= value < ROM_SIZE else ABSOLUTE)
        names += name.encode() + b"\0"
    told, form = source_of(source)
    titles = [b"", b".text", b".symtab", b".strtab", b".debug_line", b".debug_info", b".debug_abbrev", b".shstrtab"]
    kinds = [0, PROGBITS, SYMTAB, STRTAB, PROGBITS, PROGBITS, PROGBITS, STRTAB]
    contents = [b"", program_of(rows), entries, names, lines_of(rows, source), told, form, b"\0".join(titles) + b"\0"]
    at, content, heads = CODE_AT, b"", b""
    for place, (title, kind, part) in enumerate(zip(titles, kinds, contents)):
        link, info, size = (3, 1, 16) if kind == SYMTAB else (0, 0, 0)
        start = len(b"\0".join(titles[:place])) + (place > 0)
        heads += struct.pack("<10I", start, kind, 6 if title == b".text" else 0, 0, at if place else 0, len(part), link, info, 1 if place else 0, size)
        content, at = content + part, at + len(part)
    head = b"\x7fELF" + bytes([BITS_32, LITTLE, 1]) + bytes(9)
    head += struct.pack("<HHIIIIIHHHHHH", EXECUTABLE, MACHINE, 1, 0, 52, at, Z80, 52, 32, 1, 40, len(titles), len(titles) - 1)
    head += struct.pack("<8I", 1, CODE_AT, 0, 0, ROM_SIZE, ROM_SIZE, 5, 1)
    return head + content + heads


def main() -> int:
    """Writes the file."""
    parser = argparse.ArgumentParser(prog="symbols.py", description=__doc__, formatter_class=argparse.RawDescriptionHelpFormatter)
    parser.add_argument("listing", metavar="LISTING", type=pathlib.Path)
    parser.add_argument("--source", metavar="NAME", help="the name of the source")
    parser.add_argument("-o", dest="output", metavar="FILE", type=pathlib.Path, required=True)
    words = parser.parse_args()
    try:
        source = words.source or str(words.listing.with_suffix(".asm"))
        words.output.write_bytes(elf_of(words.listing.read_bytes().decode("latin-1"), source.encode()))
    except (OSError, ValueError) as error:
        print(f"symbols.py: {error}", file=sys.stderr)
        return 3
    return 0


if __name__ == "__main__":
    sys.exit(main())
