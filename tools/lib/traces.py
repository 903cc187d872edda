"""What bin/trace and bin/doctor stand on: a ROM block and what is held, of a source or a set, and programs in C over the board's library."""
import os
import pathlib
import subprocess
import sys
import tempfile

ROOT = pathlib.Path(__file__).resolve().parents[2]
OUT = ROOT / "hosts/out"
sys.path.insert(0, str(ROOT / "hosts"))

import judge_source
import roms
import script

LIBRARIES = {"trace": ("libpac_host.a", "libpac_source.a"), "doctor": ("libpac_host.a",)}  # what each program in C stands on


class Refused(Exception):
    """What was handed in is refused: the status, and the line that says why."""

    def __init__(self, status: int, why: str) -> None:
        super().__init__(why)
        self.status = status


def program_path() -> str:
    """The built program."""
    return os.environ.get("PACBOARD", str(ROOT / "crates/pacboard/out/pacboard"))


def built(name: str) -> pathlib.Path:
    """A program in C of this folder, built over the libraries where it isn't there or is older."""
    libraries, source, target = [OUT / library for library in LIBRARIES[name]], ROOT / f"tools/lib/{name}.c", OUT / name
    for library in libraries:
        if not library.exists():
            raise Refused(3, f"{library} isn't there: hosts/build makes it")
    headers = (source.with_name("stepped.h"), ROOT / "hosts/pacboard.h", ROOT / "hosts/pacsource.h")
    newest = max(path.stat().st_mtime for path in (*libraries, source, *headers, pathlib.Path(__file__)))
    if not target.exists() or target.stat().st_mtime < newest:
        with tempfile.TemporaryDirectory(prefix=f"{name}-", dir=OUT) as room:
            words = ["cc", "-std=c11", "-O2", "-Wall", "-Wextra", str(source), *map(str, libraries), "-o", f"{room}/{name}"]
            if subprocess.run(words, check=False).returncode:
                raise Refused(3, f"cc doesn't build {source}")
            os.replace(f"{room}/{name}", target)
    return target


def set_beside(source: pathlib.Path) -> pathlib.Path:
    """The ROM set beside a source, as run-example takes it."""
    places = (source.with_suffix(".toml"), source.parent / "set.toml", ROOT / "examples/set.toml")
    return next(path for path in places if path.is_file())


def assembled(source: pathlib.Path) -> bytes:
    """The ROM of a source."""
    with tempfile.TemporaryDirectory(prefix="trace-") as room:
        words = [program_path(), "asm", str(source), "--rom", f"{room}/rom", "--listing", f"{room}/listing"]
        if os.access(words[0], os.X_OK):
            done = subprocess.run(words, capture_output=True, text=True, check=False)
            if done.returncode:
                raise Refused(done.returncode, explained(done.stderr.strip(), source))
            return pathlib.Path(room, "rom").read_bytes()
    assembly, fault = judge_source.assemble(source.read_bytes())
    if fault:
        raise Refused(1, explained(fault, source))
    return bytes(assembly.rom)


def explained(line: str, source: pathlib.Path) -> str:
    """A refusal of a source, explained."""
    done = subprocess.run([ROOT / "bin/explain", line, source], capture_output=True, text=True, check=False)
    return done.stdout.strip() or line


def roms_of(given: pathlib.Path, named: pathlib.Path | None = None) -> bytes:
    """The ROM block of a source, with the set that is named or the one beside it; or of a manifest, whose name ends in .toml."""
    try:
        if given.suffix == ".toml":
            return roms.block_of(given)
        return roms.block_of(named or set_beside(given), assembled(given))
    except roms.Refused as refused:
        raise Refused(1, str(refused)) from None


def held_of(given: pathlib.Path, named: pathlib.Path | None, frames: int = 60) -> bytes:
    """What is held in each frame, two bytes each: by the script that is named, the one beside, or nothing in so many frames."""
    path = named or given.with_suffix(".script")
    if named is None and not path.is_file():
        return bytes(2 * frames)
    try:
        return script.held_in(path.read_bytes())
    except script.Refused as refused:
        raise Refused(1, f"{path}: {refused}") from None
