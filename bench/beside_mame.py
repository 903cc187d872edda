#!/usr/bin/env python3
"""Plays the examples on MAME's Pac-Man board, and compares what its bus writes show and sound with the outputs of `pacboard run`.

    bench/beside_mame.py [--pictures] [PROGRAM] [NAME ..]

PROGRAM, a word with a slash in it, is crates/pacboard/out/pacboard where none is given, which `./run-example --proved` builds. NAME is
starfall, sunset, welcome or hello, and all four where none is given. It needs MAME, on the PATH or in /usr/games: Debian's package
`mame`, of which 0.251 was tried. No window and no sound device is wanted.

tools/lib/beside.py tells how MAME plays, and draws and sounds what it wrote by the pages in docs/ alone. MAME's own picture and sound
aren't looked at.

With --pictures MAME's own pictures are looked at, and nothing else. A frame passes where MAME's picture is what its writes show by the pages
with MAME's four rules in place of ours; how many differ from those of `pacboard run` is printed. A fifth program is
played then, bench/edges.asm, whose sprites go over each edge, upright and flipped.

A frame passes where its picture and its 1,584 samples are those of `pacboard run`. The last line is `N passed, M failed`, and the exit
status is 0 where M is 0.
"""
import array
import os
import pathlib
import subprocess
import sys
import tempfile
import time

sys.dont_write_bytecode = True
ROOT = pathlib.Path(__file__).resolve().parent.parent
sys.path.insert(0, f"{ROOT}/tools/lib")
import beside
import traces

EXAMPLES = ROOT / "examples"
NAMES = ["starfall", "sunset", "welcome", "hello"]
EDGES = "edges"  # in the folder of this script
HEAD = b"P6\n288 224\n255\n"
IMAGE = len(HEAD) + 3 * beside.WIDTH * beside.HEIGHT
WAVE_HEAD = 44
MAMES = frozenset(beside.RULES)


def path_of(name: str, kind: str) -> pathlib.Path:
    """A file of a program."""
    return (ROOT / "bench" if name == EDGES else EXAMPLES) / f"{name}.{kind}"


class Run:
    """A run of an example by `pacboard`: its ROM block, what is held, its pictures and its samples."""

    def __init__(self, program: str, name: str, folder: pathlib.Path) -> None:
        """Has `pacboard` play it."""
        print(f"{name}: pacboard plays", flush=True)
        os.environ["PACBOARD"] = program
        source = path_of(name, "asm")
        self.block = traces.roms_of(source)
        held = traces.held_of(source, None)
        self.masks = [low | high << 8 for low, high in zip(held[::2], held[1::2])]
        self.frames = len(self.masks)
        words: list[str | os.PathLike[str]] = [program, "run", "--set", EXAMPLES / "set.toml", "--source", source, "--script", path_of(name, "script")]
        words += ["--frames", folder / "ppm", "--wave", folder / "wav", "--listing", folder / "txt"]
        subprocess.run(words, check=True, stdout=subprocess.DEVNULL)
        self.pictures = (folder / "ppm").read_bytes()
        self.sounds = array.array("h", (folder / "wav").read_bytes()[WAVE_HEAD:])
        if sys.byteorder == "big":
            self.sounds.byteswap()
        if len(self.pictures) != self.frames * IMAGE or len(self.sounds) != self.frames * beside.SAMPLES:
            sys.exit(f"beside_mame: pacboard stopped before the end of {name}.script")

    def picture(self, frame: int) -> bytes:
        """A frame's picture, without its head."""
        return self.pictures[frame * IMAGE + len(HEAD) : (frame + 1) * IMAGE]


class Telling:
    """Tells each second how far it is."""

    def __init__(self) -> None:
        self.told = time.monotonic()

    def tell(self, text: str) -> None:
        """Tells it, where a second has gone by."""
        if time.monotonic() - self.told > 1:
            self.told = time.monotonic()
            print(text, flush=True)


def different_pixels(image: bytes, other: bytes) -> int:
    """How many pixels of two pictures differ."""
    if image == other:
        return 0
    return sum(image[at : at + 3] != other[at : at + 3] for at in range(0, len(image), 3))


def compare_pictures(program: str, name: str, folder: pathlib.Path) -> tuple[int, int]:
    """Looks at MAME's own pictures of an example: how many are what MAME's rules make of its writes, and how many aren't."""
    run = Run(program, name, folder)
    played = beside.Played(name, run.block, run.masks, folder / name)
    artist, alike, different, telling = beside.Artist(run.block), 0, 0, Telling()
    for at, frame in enumerate(beside.frames_of(run.block, played.writes, run.frames)):
        own = played.own_picture(at)
        is_alike = own == artist.picture(frame.lines, MAMES)
        alike += is_alike
        different += own != run.picture(at)
        if not is_alike:
            print(f"FAILED: {name}, frame {at + 1}: MAME's picture isn't what its rules make of its writes", flush=True)
        telling.tell(f"{name}: looked at {at + 1} frames")
    print(f"{name}: MAME's own pictures differ from ours in {different} of {run.frames} frames", flush=True)
    return alike, run.frames - alike


def compare(program: str, name: str, folder: pathlib.Path) -> tuple[int, int]:
    """Plays an example on both boards, and tells what differs: how many of its frames are alike, and how many aren't."""
    run = Run(program, name, folder)
    played = beside.Played(name, run.block, run.masks, folder / name)
    artist, pixels, samples, alike, telling = beside.Artist(run.block), 0, 0, 0, Telling()
    for at, frame in enumerate(beside.frames_of(run.block, played.writes, run.frames)):
        wrong_pixels = different_pixels(artist.picture(frame.lines), run.picture(at))
        wrong_samples = sum(map(int.__ne__, frame.samples, run.sounds[at * beside.SAMPLES : (at + 1) * beside.SAMPLES]))
        pixels, samples, alike = pixels + wrong_pixels, samples + wrong_samples, alike + (not wrong_pixels and not wrong_samples)
        if wrong_pixels or wrong_samples:
            print(f"FAILED: {name}, frame {at + 1}: {wrong_pixels} pixels and {wrong_samples} samples differ", flush=True)
        telling.tell(f"{name}: compared {at + 1} of {run.frames} frames")
    whole = run.frames * beside.WIDTH * beside.HEIGHT
    print(f"{name}: of {run.frames} frames {pixels} of {whole:,} pixels differ, and {samples} of {len(run.sounds):,} samples")
    print(f"{name}: with {played.late} acceptances of MAME's put right by 4 T-states")
    return alike, run.frames - alike


def main() -> int:
    """Compares the examples that the words name."""
    words = [word for word in sys.argv[1:] if word != "--pictures"]
    if "--help" in words:
        print((__doc__ or "").strip())
        return 0
    program = os.path.realpath(next((word for word in words if "/" in word), f"{ROOT}/crates/pacboard/out/pacboard"))
    has_pictures = words != sys.argv[1:]
    known = [*NAMES, EDGES] if has_pictures else NAMES
    names = [word for word in words if "/" not in word] or known
    wrong = None
    if not set(names) <= set(known):
        wrong = f"the names are {', '.join(known)}"
    elif not os.access(program, os.X_OK):
        wrong = f"{program} isn't there; ./run-example --proved builds it"
    elif not beside.MAME:
        wrong = "mame isn't there; on Debian `apt-get install mame` gives it"
    if wrong:
        print(f"beside_mame.py: {wrong}", file=sys.stderr)
        return 2
    passed, failed = 0, 0
    with tempfile.TemporaryDirectory() as folder:
        for name in names:
            alike, others = (compare_pictures if has_pictures else compare)(program, name, pathlib.Path(folder))
            passed, failed = passed + alike, failed + others
    print(f"{passed} passed, {failed} failed")
    return 1 if failed else 0


if __name__ == "__main__":
    sys.exit(main())
