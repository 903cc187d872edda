#!/usr/bin/env python3
"""Tries the player in a window, hosts/out/player, which hosts/sdl/build makes: without a screen, and under Xvfb where that is here.

    hosts/sdl/try.py

It plays examples/starfall.asm by hosts/out/starfall.held, which hosts/build leaves; its last picture and the script that it records are compared with
the board's own calls and with what was held. A source is changed while it is played. Under Xvfb keys are pressed, where libXtst is here. The last line
is `N passed, M failed`, and the exit status is 0 where M is 0.
"""
import ctypes
import ctypes.util
import os
import pathlib
import shutil
import subprocess
import sys
import tempfile
import time

sys.dont_write_bytecode = True
ROOT = pathlib.Path(__file__).resolve().parents[2]
sys.path[:0] = [str(ROOT / "tools/lib"), str(ROOT / "hosts/python"), str(ROOT / "hosts")]

import judge_source
import pacboard
import roms
import rows
import script

OUT, EXAMPLES = ROOT / "hosts/out", ROOT / "examples"
PLAYER = OUT / "player"
FRAMES, LONG = 60, 240
STEPPED, MET = 2, 3  # frames that are made step by step, and how often a program comes to the address of --to
SILENT = {"SDL_VIDEODRIVER": "dummy", "SDL_AUDIODRIVER": "dummy"}
LEFT, START1, PAUSE, STEP, BACKSPACE, ESCAPE = 0xFF51, 0x31, 0x70, 0x6E, 0xFF08, 0xFF1B  # keys of X
count = rows.Count("sdl", is_shown=True)
row = count.row


def player(*words: object, more: dict[str, str] | None = None) -> tuple[int, str]:
    """What the player comes to: its status, and what it tells."""
    env = {**os.environ, **(SILENT if more is None else more)}
    done = subprocess.run([PLAYER, *map(str, words)], capture_output=True, text=True, check=False, env=env, timeout=120)
    return done.returncode, done.stderr


def block_of(text: str) -> bytes:
    """The ROM block of a source, assembled apart from the library."""
    return roms.block_of(EXAMPLES / "set.toml", bytes(judge_source.assemble(text.encode("latin-1"))[0].rom))


def ppm_of(board: pacboard.Board) -> bytes:
    """The picture of a board as a PPM image."""
    rgba, rgb = board.draw(), bytearray(pacboard.RGBA_SIZE // 4 * 3)
    for colour in range(3):
        rgb[colour::3] = rgba[colour::4]
    return b"P6\n288 224\n255\n" + bytes(rgb)


def picture_of(block: bytes, held: list[int], frames: int) -> bytes:
    """The picture after so many frames by the board's calls, as a PPM image."""
    board = pacboard.Board(block)
    for at in range(frames):
        board.hold(held[at] if at < len(held) else 0)
        board.run(pacboard.FRAME_MICROSECONDS)
    return ppm_of(board)


def try_run(room: pathlib.Path, how: str, more: dict[str, str]) -> None:
    """Plays by what is held, and ends by itself."""
    held = pacboard.held_of((OUT / "starfall.held").read_bytes())
    for content in (OUT / "starfall.roms", EXAMPLES / "starfall.asm"):
        files = {name: room / f"{how}{content.suffix}.{name}" for name in ("script", "ppm")}
        words = [content, "--held", OUT / "starfall.held", "--frames", FRAMES, "--record", files["script"], "--picture", files["ppm"], "--scale", 1, "--turn", 1]
        row(f"{content.name}, {FRAMES} frames {how}", player(*words, more=more) == (0, ""))
        row("its last picture", files["ppm"].read_bytes() == picture_of((OUT / "starfall.roms").read_bytes(), held, FRAMES))
        row("its script", script.frames_of(files["script"].read_text()) == held[:FRAMES])


def moments_of(block: bytes, held: list[int]) -> tuple[int, list[tuple[int, int, bytes]]]:
    """An address to which a program comes late in its first frames, by single steps of the board's calls: each time with its frame, T-states and picture."""
    board, seen = pacboard.Board(block), dict[int, list[bytes]]()
    for at in range(STEPPED):
        board.hold(held[at])
        for _ in range(pacboard.FRAME_MICROSECONDS):
            before = board.block
            board.run(1)
            if (after := board.block)[66:74] != before[66:74]:
                seen.setdefault(int.from_bytes(after[52:54], "little"), []).append(after)
    found = max((times[0][58:66][::-1], address) for address, times in seen.items() if len(times) >= MET)[1]
    moments = []
    for kept in seen[found]:
        board.block = kept
        moments.append((int.from_bytes(kept[58:66], "little") // 50_688, int.from_bytes(kept[58:66], "little"), ppm_of(board)))
    return found, moments


def try_address(room: pathlib.Path) -> None:
    """Goes to an address, and to one where the program doesn't come."""
    block, held = (OUT / "starfall.roms").read_bytes(), pacboard.held_of((OUT / "starfall.held").read_bytes())
    address, moments = moments_of(block, held)
    words = [OUT / "starfall.roms", "--held", OUT / "starfall.held", "--frames", FRAMES, "--picture", room / "to.ppm", "--to"]
    frame, time_there, picture = moments[0]
    row("to an address", player(*words, f"{address:04x}") == (0, f"player: at {address:04X} in frame {frame}, T-state {time_there}\n"))
    row("its picture", (room / "to.ppm").read_bytes() == picture)
    row("to where it doesn't come", player(*words, "FFFF") == (0, "") and (room / "to.ppm").read_bytes() == picture_of(block, held, FRAMES))


def try_source(room: pathlib.Path) -> None:
    """Changes a source while it is played: with a fault, and then for the better."""
    for path in EXAMPLES.iterdir():
        shutil.copy(path, room)
    text, source = (EXAMPLES / "hello.asm").read_text(), room / "hello.asm"
    changed = text.replace("'HELLO'", "'WORLD'")
    words: list[str | pathlib.Path] = [PLAYER, source, "--frames", str(LONG), "--picture", room / "it.ppm"]
    with subprocess.Popen(words, stderr=subprocess.PIPE, text=True, env={**os.environ, **SILENT}) as process:
        for content in (text + " LD A,NOWHERE\n", changed):
            time.sleep(1)
            (room / "new.asm").write_text(content)
            os.replace(room / "new.asm", source)  # whole at once, as most editors save
        told = process.communicate(timeout=60)[1]
    row("a source that is saved while it is played", process.returncode == 0 and told.count("\n") == 2)
    row("its fault, by line, and then the same moment", f"refused A8 line {text.count(chr(10)) + 1}\n" in told and told.endswith("played to the same moment\n"))
    row("the picture of the last source", (room / "it.ppm").read_bytes() == picture_of(block_of(changed), [], LONG) != picture_of(block_of(text), [], LONG))


def try_refusals(room: pathlib.Path) -> None:
    """Words, content and files that are refused."""
    wrong: list[list[str]] = [[], ["--frames"], ["a", "b"], ["a", "--frames", "x"], ["a", "--turn", "4"], ["a", "--scale", "0"], ["a", "--none", "1"], ["a", "--frames", "36001"], ["a", "--to", "10000"], ["a", "--to", "x"], ["a", "--to"]]
    for words in wrong:
        row(f"the words {words}", player(*words)[0] == 2)
    (room / "odd").write_bytes(b"\0")
    held: list[list[str | pathlib.Path]] = [[OUT / "starfall.roms", "--held", room / name] for name in ("odd", "none")]
    held += [[room / "none.roms"], [room]]
    for content in held:
        status, told = player(*content)
        row(f"{pathlib.Path(content[-1]).name} is refused", status == 4 and told.count("\n") == 1)
    for name in ("--record", "--picture"):
        row(f"{name} in no folder", player(OUT / "hello.roms", "--frames", 1, name, room / "none/it")[0] == 3)
    row("no screen", player(OUT / "hello.roms", "--frames", 1, more={"SDL_VIDEODRIVER": "none"})[0] == 3)


def await_window(x: ctypes.CDLL, server: ctypes.c_void_p) -> None:
    """Waits until a window is there, at most 20 seconds, and another one until its first frames are played."""
    x.XDefaultRootWindow.restype = ctypes.c_ulong
    found, parent, windows, number = ctypes.c_ulong(), ctypes.c_ulong(), ctypes.c_void_p(), ctypes.c_uint()
    for _ in range(200):
        root = ctypes.c_ulong(x.XDefaultRootWindow(server))
        x.XQueryTree(server, root, ctypes.byref(found), ctypes.byref(parent), ctypes.byref(windows), ctypes.byref(number))
        if number.value:
            break
        time.sleep(0.1)
    time.sleep(1)


def pressed(room: pathlib.Path, display: str, presses: list[tuple[int, int, float]], *more: str) -> tuple[int | None, list[int], bytes, str]:
    """Plays hello while keys go down, 1, and up, 0, each with the seconds after it: the exit status, what was held by the script, the picture, and what is
    told."""
    x, test = ctypes.CDLL(ctypes.util.find_library("X11")), ctypes.CDLL(ctypes.util.find_library("Xtst"))
    x.XOpenDisplay.restype = ctypes.c_void_p
    server, files = ctypes.c_void_p(x.XOpenDisplay(display.encode())), [room / "keys.script", room / "keys.ppm"]
    env = {**os.environ, "DISPLAY": display, "SDL_VIDEODRIVER": "x11", "SDL_AUDIODRIVER": "dummy"}
    words: list[str | pathlib.Path] = [PLAYER, OUT / "hello.roms", "--record", files[0], "--picture", files[1], *more]
    with subprocess.Popen(words, env=env, stderr=subprocess.PIPE, text=True) as process:
        await_window(x, server)
        for key, is_down, seconds in presses:
            test.XTestFakeKeyEvent(server, x.XKeysymToKeycode(server, ctypes.c_ulong(key)), is_down, ctypes.c_ulong(0))
            x.XFlush(server)
            time.sleep(seconds)
        try:
            told = process.communicate(timeout=10)[1]
        except subprocess.TimeoutExpired:
            process.kill()
            told = process.communicate()[1]
    x.XCloseDisplay(server)
    is_there = all(path.exists() for path in files)
    return process.returncode, script.frames_of(files[0].read_text()) if is_there else [], files[1].read_bytes() if is_there else b"", told


def try_keys(room: pathlib.Path, display: str) -> None:
    """Presses keys in the window under Xvfb, and reads what the player records."""
    if not ctypes.util.find_library("X11") or not ctypes.util.find_library("Xtst"):
        print("LEFT OUT: keys, since libXtst isn't here", file=sys.stderr, flush=True)
        return
    left, start = pacboard.INPUTS["P1_LEFT"], pacboard.INPUTS["START1"]
    tap = lambda key: [(key, 1, 0.1), (key, 0, 0.2)]
    status, found, *_ = pressed(room, display, [(LEFT, 1, 0.5), (LEFT, 0, 0.2), (START1, 1, 0.5), (START1, 0, 0.2), *tap(ESCAPE)])
    row("Escape ends it", status == 0)
    counts = {mask: found.count(mask) for mask in found}
    row("keys by their names", set(counts) == {0, left, start} and counts[left] > 5 and counts[start] > 5, str(counts))
    status, found, picture, _ = pressed(room, display, [*tap(PAUSE), (LEFT, 1, 0.2), *3 * tap(STEP), (LEFT, 0, 0.2), *tap(BACKSPACE), *tap(ESCAPE)])
    row("a pause, three steps and one back", status == 0 and found[-3:] == [0, left, left] and set(found[:-2]) == {0}, str(found[-9:]))
    row("its picture", picture == picture_of((OUT / "hello.roms").read_bytes(), found, len(found)))
    status, found, *_ = pressed(room, display, [(START1, 1, 0.4), (START1, 0, 0.05), *tap(BACKSPACE), *tap(ESCAPE)])
    row("a second back, before a key was pressed", status == 0 and set(found) == {0}, str(found[-99:]))
    address, moments = moments_of((OUT / "hello.roms").read_bytes(), [0] * STEPPED)
    status, _, picture, told = pressed(room, display, [*(MET - 1) * tap(PAUSE), *tap(ESCAPE)], "--to", f"{address:04X}")
    lines = "".join(f"player: at {address:04X} in frame {frame}, T-state {there}\n" for frame, there, _ in moments[:MET])
    row(f"{MET} times to an address", status == 0 and told == lines and picture == moments[MET - 1][2], told)


def try_screen(room: pathlib.Path) -> None:
    """Plays under Xvfb."""
    if not shutil.which("Xvfb"):
        print("LEFT OUT: the player under Xvfb, which isn't here", file=sys.stderr, flush=True)
        return
    readable, writable = os.pipe()
    with subprocess.Popen(["Xvfb", "-displayfd", str(writable), "-screen", "0", "800x600x24"], pass_fds=(writable,), stderr=subprocess.DEVNULL) as server:
        os.close(writable)
        with os.fdopen(readable) as told:
            display = f":{told.readline().strip()}"
        try:
            try_run(room, "under Xvfb", {"DISPLAY": display, "SDL_VIDEODRIVER": "x11", "SDL_AUDIODRIVER": "dummy"})
            try_keys(room, display)
        finally:
            server.terminate()


def main(words: list[str]) -> int:
    """Tries the player."""
    del words
    with tempfile.TemporaryDirectory(prefix="sdl-") as name:
        room = pathlib.Path(name)
        try_run(room, "without a screen", SILENT)
        try_refusals(room)
        try_address(room)
        try_source(room)
        try_screen(room)
    return count.end(20)


if __name__ == "__main__":
    rows.main(__doc__, main)
