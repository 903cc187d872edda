#!/usr/bin/env python3
"""Makes the ROM block of a board: the parts of a ROM set one after another, as the calls of hosts/pacboard.h take them.

    hosts/roms.py MANIFEST [--program ROM] -o FILE

The parts are those of the manifest (docs/FORMATS.md), whose SHA-1 digests are compared where it has them. --program takes the program from
a file of 16,384 bytes instead, as `pacboard asm` writes one; the manifest has none then. The block has 25,120 bytes. A set that is refused
is told as `pacboard run` tells it, as `refused M4 tiles`, with the exit status 1.
"""
import argparse
import hashlib
import os
import pathlib
import sys
import tomllib

PARTS = {"tiles": 4096, "sprites": 4096, "colours": 32, "lookup": 256, "wave": 256}  # in the order of the block, after the program
QUARTER = 4096  # bytes of a part of the program
MOST_LINKS = 40  # that a name leads through
SIZE = 4 * QUARTER + sum(PARTS.values())
Table = dict[str, str]  # of a part: `file`, and `sha1` where it has one


class Refused(Exception):
    """A ROM set is refused."""


def is_table(table: object) -> bool:
    """Whether a part's table has the form of one."""
    if not isinstance(table, dict) or not isinstance(table.get("file", ""), str):
        return False
    digest = table.get("sha1", "0" * 40)
    return isinstance(digest, str) and len(digest) == 40 and not set(digest) - set("0123456789abcdefABCDEF")


def tables_of(text: bytes, has_program: bool) -> dict[str, tuple[Table, int]]:
    """The tables of the parts that a manifest names, in the order of the block, each with its size."""
    try:
        manifest = tomllib.loads(text.decode())
    except (ValueError, RecursionError):  # (tomllib goes down with each bracket)
        raise Refused("refused M1") from None
    quarters = manifest.get("program")
    if quarters is not None and (not isinstance(quarters, list) or len(quarters) != 4):
        raise Refused("refused M1")
    tables = {f"program{at}": table for at, table in enumerate(quarters or [], 1)}
    sizes = dict.fromkeys(["program1"] if not quarters and not has_program else tables, QUARTER) | PARTS
    tables |= {name: manifest[name] for name in [*PARTS, "timing"] if name in manifest}
    sizes |= {"timing": PARTS["wave"]} if "timing" in manifest else {}
    if not all(is_table(table) for table in tables.values()):
        raise Refused("refused M1")
    for name in sizes:
        if "file" not in tables.get(name, {}):
            raise Refused(f"refused M2 {name}")
    if quarters and has_program:
        raise Refused("refused M6")
    return {name: (tables[name], size) for name, size in sizes.items()}


def beginning(path: str | os.PathLike[str], size: int) -> bytes:
    """The first bytes of a file, so many at most."""
    with open(path, "rb") as file:
        return file.read(size)


def path_of(folder: pathlib.Path, file: str) -> str | None:
    """The path of a plain file that a manifest names, in its folder or below, past links that stay there (docs/FORMATS.md), or None."""
    if not file or "\0" in file or file.startswith("/") or ".." in file.split("/"):
        return None
    parts, path, depth, links = file.split("/"), str(folder), 0, MOST_LINKS
    while parts:
        there, depth_there = f"{path}/{parts[0]}", depth + {"..": -1, ".": 0, "": 0}.get(parts[0], 1)
        if os.path.islink(there):
            text = os.readlink(there)
            if text.startswith("/") or not links:
                return None
            parts[:1], links = text.split("/"), links - 1
        elif depth_there < 0:
            return None
        else:
            path, depth = there, depth_there
            del parts[0]
    return path if os.path.isfile(path) else None


def part_of(folder: pathlib.Path, name: str, table: Table, size: int) -> bytes:
    """The bytes of a part, which are looked at."""
    file = table["file"]
    path = path_of(folder, file)
    if path is None:
        raise OSError(f"there is no file {file!r} in the manifest's folder")
    part = beginning(path, size + 1)
    if len(part) != size:
        raise Refused(f"refused M3 {name}")
    if hashlib.sha1(part).hexdigest() != table.get("sha1", hashlib.sha1(part).hexdigest()).lower():
        raise Refused(f"refused M4 {name}")
    return part


def block_of(manifest: pathlib.Path, program: bytes | None = None) -> bytes:
    """The ROM block of a manifest, with the bytes of a program where one is given."""
    if program is not None and len(program) != 4 * QUARTER:
        raise Refused("the program has another length than 16,384 bytes")
    tables = tables_of(manifest.read_bytes(), program is not None)
    parts = {name: part_of(manifest.parent, name, *table) for name, table in tables.items()}
    return (program or b"") + b"".join(part for name, part in parts.items() if name != "timing")


def main() -> int:
    """Writes a ROM block."""
    parser = argparse.ArgumentParser(prog="roms.py", description=__doc__, formatter_class=argparse.RawDescriptionHelpFormatter)
    parser.add_argument("manifest", type=pathlib.Path)
    parser.add_argument("--program", metavar="ROM", type=pathlib.Path)
    parser.add_argument("-o", dest="output", metavar="FILE", type=pathlib.Path, required=True)
    words = parser.parse_args()
    try:
        program = beginning(words.program, 4 * QUARTER + 1) if words.program else None
        words.output.write_bytes(block_of(words.manifest, program))
    except OSError as error:
        print(f"roms.py: {error}", file=sys.stderr)
        return 3
    except Refused as error:
        print(error, file=sys.stderr)
        return 1
    return 0


if __name__ == "__main__":
    sys.exit(main())
