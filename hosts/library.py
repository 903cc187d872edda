"""Crates built by the kit in a copy, as C libraries or programs: for hosts/build, bench/processor.py, tools/check/built-again and tools/check/hosts."""
import contextlib
import importlib
import os
import pathlib
import re
import shlex
import shutil
import subprocess
import sys
import tarfile
import tempfile
import time

HERE = pathlib.Path(__file__).resolve().parent
ROOT = HERE.parent
OUT = ROOT / "hosts/out"
KEPT = OUT / "checked"  # what the kit's checks of each crate keep
# a library's functions begin where 64 divides, and what is jumped to where 32 does: elsewhere the loop of steps takes up to a tenth more
ALIGNED = ("-mllvm", "-align-all-functions=6", "-mllvm", "-align-all-nofallthru-blocks=5")
LINE = re.compile(r"(\w+)( +staticlib)?(?: +[\w=]+)*: *(.*)")
TOLD = 2  # seconds between two lines about what goes on
AFTER, BESIDE = "--after-ci", "--beside-ci"  # the words that say that `rt ci` has just proved these very files, or is proving them


class Proof:
    """What is known of the crates below a library: whether `rt ci` proves them; and where it is under way, the file into which it prints."""

    def __init__(self, is_of_ci=False, log=None):
        self.is_of_ci, self.log = is_of_ci, log

    def wait(self, names):
        """Waits until `rt ci` has proved these crates, and tells how long; where it is over without, that is the end."""
        begun = time.monotonic()
        while self.log:
            said = self.log.read_text(errors="replace")
            missing = {*names}.difference(re.findall(r"^rt: (\w+) (?:proved$|is kept: )", said, re.M))
            if not missing:
                break
            if re.search(r"^\d+ passed, \d+ failed", said, re.M):
                sys.exit(f"rt ci doesn't say that {min(missing)} is proved")
            print(f"rt ci has {len(missing)} crates to prove yet, {time.monotonic() - begun:.0f} s", file=sys.stderr, flush=True)
            time.sleep(TOLD)

    def take_checked(self, crate, to):
        """Copies what `rt ci` has checked of a program while its compilers take it from there; False where it's over without, or isn't under way.

        It has the sums of all that it stands on, which the kit compares with what it compiles.
        """
        begun, is_over = time.monotonic(), not self.log
        while not is_over:
            said = self.log.read_text(errors="replace")
            is_over = bool(re.search(rf"^rt: {crate} (?:proved$|is kept: )|^\d+ passed, \d+ failed", said, re.M))
            if any(copied(folder, to) for folder in handed_on(crate)):
                return True
            print(f"rt ci has {crate} to check yet, {time.monotonic() - begun:.0f} s", file=sys.stderr, flush=True)
            time.sleep(TOLD)
        return False


def handed_on(crate):
    """The folders with a crate of this repository, checked, that the kit's compilers are taking now: as their command lines say."""
    for process in pathlib.Path("/proc").glob("[0-9]*"):
        with contextlib.suppress(OSError):
            words = (process / "cmdline").read_bytes().decode(errors="replace").split("\0")
            if "--crate-checked" in words[:-1] and (process / "cwd").resolve() == ROOT / "crates" / crate:
                yield pathlib.Path(words[words.index("--crate-checked") + 1])


def copied(folder, to):
    """Whether a folder could be copied: another process may be taking it away."""
    try:
        shutil.copytree(folder, to)
    except (OSError, shutil.Error):
        shutil.rmtree(to, ignore_errors=True)
        return False
    return True


def proof_in(words):
    """What the words of a command line say of the proof, and the other words."""
    if BESIDE in words[:-1]:
        at = words.index(BESIDE)
        return Proof(True, pathlib.Path(words[at + 1])), words[:at] + words[at + 2 :]
    return Proof(AFTER in words), [word for word in words if word != AFTER]


def crates():
    """What each line of crates.txt says: whether the crate is a static library, and the names after the colon."""
    rows = (LINE.fullmatch(line.strip()) for line in (ROOT / "crates.txt").read_text().splitlines() if not line.startswith("#"))
    return {row[1]: (row[2] is not None, row[3].split()) for row in rows if row}


def crates_below(table, crate):
    """The names of all crates below one."""
    found, waiting = set(), [*table[crate][1]]
    while waiting:
        crate = waiting.pop()
        if crate in table and crate not in found:
            found.add(crate)
            waiting += table[crate][1]
    return found


def lay_file(source, to):
    """Gives a file a second name, or copies it to another file system."""
    try:
        os.link(source, to)
    except OSError:
        shutil.copy(source, to)


def lay_crate(crate, to, is_proved=True):
    """Copies a crate. Of what was built only its proved library is taken, if it may be: hundreds of megabytes of files that nobody writes."""
    built = ROOT / "crates" / crate / "out/rlib"
    shutil.copytree(ROOT / "crates" / crate, to, ignore=shutil.ignore_patterns("out", "wrong-bodies.toml", "must-fail"))
    if is_proved and (built / f"{crate}.rlib").is_dir():
        shutil.copytree(built, to / "out/rlib", copy_function=lay_file)


def stamp(folder):
    """Lets the kit take the libraries of a copy as they are: `rt ci` leaves them without the stamp that says of which files they are."""
    rtlib = kit_module()
    os.chdir(folder)
    of_files, known = rtlib.Crate.stamp, {}

    def stamp_once(crate):
        """As the kit's, which reads a crate's files once for each way that leads to it: 3,500 times for 41 crates."""
        if crate.folder not in known:
            known[crate.folder] = of_files(crate)
        return known[crate.folder]

    rtlib.Crate.stamp = stamp_once
    try:
        for crate in rtlib.crates_below(str(folder)):
            built = folder / "crates" / crate.name / "out/rlib"
            if built.is_dir() and not (built / "stamp").exists():
                (built / "stamp").write_text(crate.stamp())
    finally:
        rtlib.Crate.stamp = of_files


def kit():
    """The folder of the kit."""
    return pathlib.Path(shutil.which("rt") or "rt").resolve().parent.parent


def kit_module():
    """The module in which the kit's `rt` has what it knows of crates."""
    sys.path.insert(0, str(kit() / "bin"))
    return importlib.import_module("rtlib")


def lay_kit(to, kept, flags=()):
    """Lays a copy of the kit into a folder, its files by links, and answers the copy's `rt`.

    The copy proves the same, and hands its C compiler the same program, as LLVM's bitcode, which is kept in a file, with these flags beside its own.
    """
    whole, compiler = kit(), "toolchain/bin/clang"
    for file in [*whole.iterdir(), *(whole / "bin").iterdir(), *(whole / "toolchain").iterdir(), *(whole / "toolchain/bin").iterdir()]:
        name = file.relative_to(whole)
        (to / name).parent.mkdir(parents=True, exist_ok=True)
        if str(name) in ("bin/rt", "bin/rtlib.py"):
            shutil.copy(file, to / name)  # (they look for the rest beside themselves)
        elif str(name) not in ("bin", "toolchain", "toolchain/bin", compiler):
            (to / name).symlink_to(file)
    keep = f'[ ! -f module.bc ] || {{ cp module.bc {shlex.quote(str(kept))}; set -- {shlex.join(flags)} "$@"; }}'
    (to / compiler).write_text(f'#!/bin/sh\n{keep}\nexec {shlex.quote(str(whole / compiler))} "$@"\n')
    (to / compiler).chmod(0o755)
    return to / "bin/rt"


def words_for(folder, crate):
    """The words by which the kit's `rattle` reads a crate that is laid in a folder, and those of a check alone."""
    rtlib = kit_module()
    os.chdir(folder)
    words = next(it for it in rtlib.crates_below(str(folder)) if it.name == crate).words(["--jobs", "1"], keeps=False)
    places = [words.index(flag) for flag in ("--logic-built", "--jobs")]
    alone = [at + more for at in places for more in (0, 1)]
    return [word for at, word in enumerate(words) if at not in alone], [words[at] for at in alone]


def check(folder, crate, to):
    """Checks a crate that is laid in a folder, of which those below are proved, and keeps what is checked in another, to be compiled."""
    words, flags = words_for(folder, crate)
    shutil.rmtree(to, ignore_errors=True)
    to.parent.mkdir(parents=True, exist_ok=True)
    run(kit() / "bin/rattle", folder / "crates" / crate, "check", *words, *flags, "-o", to)


def compile_checked(folder, crate, checked, made, backend="llvm"):
    """Compiles a crate that is checked into a file of its `out`, in a folder where it's laid over a copy of the kit."""
    words, copy, at = words_for(folder, crate)[0], folder / "kit", folder / "crates" / crate
    words = [word.replace(f"{kit()}/", f"{copy}/") for word in words]
    (at / "out").mkdir(exist_ok=True)
    words += ["--crate-checked", checked, "--toolchain", copy / "toolchain", "--backend", backend, "-o", f"out/{made}"]
    run(copy / "bin/rattle", at, "build", *words)
    return at / "out" / made


def link(folder, crate):
    """Links a program that is compiled in a folder where it's laid over a copy of the kit, as `rt ci` does, and runs it."""
    copy, at, made = folder / "kit", folder / "crates" / crate, f"out/{crate}"
    words = ["--target", "x86_64-unknown-linux-gnu", "--toolchain", copy / "toolchain", "-o", made, f"{made}.o"]
    run(copy / "bin/rattle-link", at, *words, copy / "c/libos_c.a", copy / "c/liblibc_c.a")
    run(at / made, at, "--help")


def run(tool, folder, *words):
    """Runs a tool, as `rt`, with these words in a folder, and tells every two seconds how far it is; ends where it fails."""
    begun, command = time.monotonic(), f"{pathlib.Path(tool).name} {words[0]}"
    with tempfile.TemporaryFile("w+") as said:
        with subprocess.Popen([tool, *words], cwd=folder, stdout=said, stderr=subprocess.STDOUT) as process:
            while process.poll() is None:
                with contextlib.suppress(subprocess.TimeoutExpired):
                    process.wait(TOLD)
                lines = text_of(said).splitlines() or [""]
                print(f"{command}, {time.monotonic() - begun:.0f} s: {lines[-1].strip()[:100]}", file=sys.stderr, flush=True)
        if process.returncode:
            sys.exit("\n".join(text_of(said).splitlines()[-40:]) + f"\n{command}: status {process.returncode}")


def text_of(file):
    """All that stands in a file which is open, and which another program writes."""
    return os.pread(file.fileno(), os.fstat(file.fileno()).st_size, 0).decode(errors="replace")


def keep(crate, built):
    """Keeps what a check of a crate has left, as one file: `rt ci` refuses a tree in which a .rt file lies where no check reads it."""
    KEPT.mkdir(parents=True, exist_ok=True)
    with tempfile.TemporaryDirectory(prefix=".kept-", dir=KEPT) as room:  # (another process may be taking what was kept before)
        with tarfile.open(f"{room}/tar", "w") as tar:
            if (built / "incremental").is_dir():
                tar.add(built / "incremental", "incremental")
        os.replace(f"{room}/tar", KEPT / f"{crate}.tar")


def checked_of(crate):
    """The folder in which a library is kept as it was checked."""
    return KEPT / f"{crate}.checked"


def take_kept(crate, built):
    """Lays what was kept of a crate into a folder, if anything was."""
    file = KEPT / f"{crate}.tar"
    if file.is_file():
        with tarfile.open(file) as tar:
            tar.extractall(built)


@contextlib.contextmanager
def laid(table, name, kind, proof, sources=None):
    """Lays a crate, as one of this kind, and all below it into another folder, which is there as long as it's needed: its crates.txt says which
    kind it is, and the repository is left as it is. One that isn't in `crates` has its sources named, each by what it's called there."""
    below = crates_below(table, name)
    proof.wait(below)
    with tempfile.TemporaryDirectory(prefix="hosts-") as room:
        folder = pathlib.Path(room).resolve()
        for crate in [*below, *[name] * (not sources)]:
            lay_crate(crate, folder / "crates" / crate)
        (folder / "crates" / name / "src").mkdir(parents=True, exist_ok=True)
        for source, file in (sources or {}).items():
            shutil.copy(file, folder / "crates" / name / "src" / source)
        lines = [f"{crate}: {' '.join(table[crate][1])}" for crate in table if crate in below]
        (folder / "crates.txt").write_text("\n".join([*lines, f"{f'{name} {kind}'.strip()}: {' '.join(table[name][1])}", ""]))
        shutil.copy(ROOT / "HANDLES", folder / "HANDLES")
        if proof.is_of_ci:
            stamp(folder)
        yield folder


def jobs(proof):
    """How many processes a check may take: in the gate one, since other work waits there for a processor, and four take two thirds more of it."""
    return ["--jobs", "1"] if proof.is_of_ci else []


def build(name, proof):
    """Builds a static library in a copy of it and of all below it, and takes the file that it leaves, and the bitcode of which the compiler made it.

    What an earlier build has checked, and nothing has changed since, isn't checked again. Where `rt ci` proves what is below, the library is checked
    apart from its compilation, so that others can compile it, too.
    """
    table = crates()
    if not table.get(name, (False, []))[0]:
        sys.exit(f"crates.txt has no static library {name}")
    with laid(table, name, "staticlib", proof) as folder:
        crate = folder / "crates" / name
        OUT.mkdir(exist_ok=True)
        rt = lay_kit(folder / "kit", OUT / f"lib{name}.bc", ALIGNED)
        if proof.is_of_ci:
            check(folder, name, checked_of(name))
            compile_checked(folder, name, checked_of(name), f"lib{name}.a")
        else:
            take_kept(name, crate / "out")
            run(rt, crate, "lib")
            keep(name, crate / "out")
        made = pathlib.Path(shutil.copy(crate / f"out/lib{name}.a", OUT))
    print(f"{made}: {made.stat().st_size:,} bytes", flush=True)


def add_heap(to):
    """Adds the kit's three calls for memory to a library for C: they are the host's malloc, realloc and free, as heap.c of the kit has them."""
    with tempfile.TemporaryDirectory() as room:
        subprocess.run(["ar", "x", kit() / "c/liblibc_c.a"], cwd=room, check=True)
        parts = [part for part in sorted(pathlib.Path(room).iterdir()) if part.name.startswith("heap")]
        subprocess.run(["ar", "qs", OUT / to, *parts], check=True)
