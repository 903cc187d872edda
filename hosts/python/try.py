#!/usr/bin/env python3
"""Tries the installed package pacboard, from whatever folder it is called in.

    PYTHON -P hosts/python/try.py REPOSITORY

-P keeps Python from the folder of this file. REPOSITORY has the examples' sums, and in hosts/out the ROM blocks and what is held, which
hosts/build leaves. Eight threads play eight boards, blocks and live ones, whose films and sounds have to have the recorded sums. What a live
board does is held against a block, and its registers against the places that docs/FORMATS.md gives them. The last line is `N passed, M failed`,
and the exit status is 0 where M is 0.
"""
from __future__ import annotations

import array
import concurrent.futures
import copy
import ctypes
import hashlib
import importlib
import importlib.util
import pathlib
import pickle
import random
import re
import resource
import struct
import sys
import threading
from collections.abc import Callable
from typing import Any

import pacboard

sys.dont_write_bytecode = True
ROOT = pathlib.Path(sys.argv[1]) if len(sys.argv) == 2 else pathlib.Path()
OUT, EXAMPLES = ROOT / "hosts/out", ROOT / "examples"
THREADS = 8
FRAMES = 30
STEPS, SETS, CALLS, OPENED = 3000, 60, 400, 1000  # single steps, sets of addresses, calls of a list, and boards that are opened one after another
MOST_LEFT = 40_000  # kibibytes that these may leave, a quarter of what they take
LONG = 30_000_000  # microseconds of a run beside which another thread counts
OTHERS: list[Any] = [float("inf"), float("nan"), 1.0, "1", b"1", None, [], 1j]  # what is no whole number
KINDS: list[type[pacboard.Board] | type[pacboard.LiveBoard]] = [pacboard.Board, pacboard.LiveBoard]
HEAD = b"P6\n288 224\n255\n"
AT_STEPS, AT_ASKED = 66, 74  # of a block: the steps, and the microseconds that were asked so far, eight bytes each
passed = failed = 0


def row(what: str, is_so: object) -> None:
    """Counts a row, and shows one that isn't so."""
    global passed, failed  # pylint: disable=global-statement
    passed, failed = passed + bool(is_so), failed + (not is_so)
    if not is_so:
        print(f"FAILED: {what}", flush=True)


def fault_of(call: Callable[..., object], *words: object) -> str:
    """The name of the error that a call ends with; nothing where it ends with none."""
    try:
        call(*words)
    except Exception as error:  # pylint: disable=broad-except
        return type(error).__name__
    return ""


def roms_of(name: str) -> bytes:
    """The ROM block of an example."""
    return (OUT / f"{name}.roms").read_bytes()


def board_of(name: str) -> pacboard.Board:
    """A board at power-on with the ROMs of an example."""
    return pacboard.Board(roms_of(name))


def played(board: pacboard.Calls, frames: int) -> list[bytes]:
    """Plays frames with nothing held: each one's samples and picture."""
    found = []
    for _ in range(frames):
        board.hold(0)
        found.append(board.run(pacboard.FRAME_MICROSECONDS)[1].tobytes() + board.draw())
    return found


def film(name: str, board: pacboard.Calls) -> tuple[str, str]:
    """The sums of an example's film and sound."""
    held = pacboard.held_of((OUT / f"{name}.held").read_bytes())
    rate, size = pacboard.SAMPLE_RATE, 2 * pacboard.FRAME_SAMPLES * len(held)
    frames = hashlib.sha1()
    wave = hashlib.sha1(struct.pack("<4sI8sIHHIIHH4sI", b"RIFF", 36 + size, b"WAVEfmt ", 16, 1, 1, rate, 2 * rate, 2, 16, b"data", size))
    rgba, rgb = bytearray(pacboard.RGBA_SIZE), bytearray(pacboard.RGBA_SIZE // 4 * 3)
    for mask in held:
        board.hold(mask)
        wave.update(board.run(pacboard.FRAME_MICROSECONDS)[1])
        board.draw_into(rgba)
        for colour in range(3):
            rgb[colour::3] = rgba[colour::4]
        frames.update(HEAD)
        frames.update(rgb)
    return frames.hexdigest(), wave.hexdigest()


def try_threads() -> None:
    """Plays eight boards in eight threads, and then one board in all of them."""
    sums = dict(line.split("  ")[::-1] for line in (EXAMPLES / "outputs.sha1").read_text().splitlines())
    names = sorted(path.stem for path in EXAMPLES.glob("*.asm"))
    names = (names * THREADS)[:THREADS]
    with concurrent.futures.ThreadPoolExecutor(THREADS) as pool:
        for kind in KINDS:
            boards = [kind(roms_of(name)) for name in names]
            for name, found in zip(names, list(pool.map(film, names, boards))):
                row(f"{name}, a {kind.__name__} in one of {THREADS} threads", found == (sums[f"{name}/frames.ppm"], sums[f"{name}/wave.wav"]))
            board = kind(roms_of("hello"))
            list(pool.map(lambda _, it=board: played(it, FRAMES), range(THREADS)))
            asked = int.from_bytes(board.block[AT_ASKED : AT_ASKED + 8], "little")
            row(f"one {kind.__name__} in {THREADS} threads", asked == THREADS * FRAMES * pacboard.FRAME_MICROSECONDS)


def try_beside() -> None:
    """Counts in one thread while a board runs in another."""
    live, counted = pacboard.LiveBoard(roms_of("starfall")), 0
    other = threading.Thread(target=live.run, args=(LONG,))
    other.start()
    while other.is_alive():
        counted += 1
    row("a run leaves other threads of Python free", counted > 1000)


def laid_out(name: str) -> list[tuple[str, int]]:
    """The fields of a struct of the header, in their order, each with its size."""
    sizes = {"uint64_t": 8, "uint32_t": 4, "uint16_t": 2, "uint8_t": 1, "size_t": 8, "void *": 8}
    header = (ROOT / "hosts/pacboard.h").read_text().partition(f"typedef struct {name} {{")[2].partition("}")[0]
    rows = re.findall(r"^    (\w+(?: \*)?) ?(\w+)(?:\[(\d+)\])?;", header, re.M)
    return [(field, sizes[kind] * int(count or 1)) for kind, field, count in rows]


def try_structs() -> None:
    """The structs, by the header."""
    structs: dict[str, type[ctypes.Structure]] = {"pac_ran": pacboard.Ran, "pac_registers": pacboard.Registers, "pac_live": pacboard.Handle, "pac_until": pacboard.Until}
    for name, struct_of in structs.items():
        fields, at, is_so = laid_out(name), 0, True
        for field, size in fields:
            place = getattr(struct_of, field)
            is_so, at = is_so and (place.offset, place.size) == (at, size), at + size
        row(f"{name} by the header", is_so and at + -at % 8 == ctypes.sizeof(struct_of) and len(fields) >= 3)


def but_asked(block: bytes) -> bytes:
    """A block without the microseconds that were asked so far."""
    return block[:AT_ASKED] + block[AT_ASKED + 8 :]


def stepped(board: pacboard.Board) -> None:
    """Has a board that is a block make one step: by microseconds, of which the shortest step has more than one."""
    steps = board.block[AT_STEPS : AT_STEPS + 8]
    while board.block[AT_STEPS : AT_STEPS + 8] == steps:
        board.run(1)


def try_steps() -> None:
    """Single steps against a block, and the registers against their places in it."""
    spec = importlib.util.spec_from_file_location("blocks", ROOT / "tools/lib/blocks.py")
    assert spec and spec.loader
    blocks = importlib.util.module_from_spec(spec)
    spec.loader.exec_module(blocks)
    others = {"interrupt_mode": "IM", "halted": "HALT", "after_ei": "EI", "time": "time", "steps": "steps"}
    names = {name: others.get(name, f"{name[-1].upper()}'" if name.startswith("alternate_") else name.upper()) for name, _ in laid_out("pac_registers")[:-1]}
    row(f"{len(names)} registers", len(names) == 29)
    for name, first in (("starfall", 0), ("sunset", 100)):
        live, board, is_so = pacboard.LiveBoard(roms_of(name)), board_of(name), True
        for _ in range(first):
            live.run(pacboard.FRAME_MICROSECONDS), board.run(pacboard.FRAME_MICROSECONDS)
        for _ in range(STEPS):
            ran, _ = live.step()
            stepped(board)
            found, block = live.registers(), board.block
            is_so = is_so and but_asked(live.block) == but_asked(block) and 4 <= ran.ticks <= 23
            is_so = is_so and all(getattr(found, name) == blocks.number(block, place) for name, place in names.items())
        row(f"{STEPS} steps of {name}, each with its registers", is_so)


def walked(name: str, frames: int, steps: int) -> tuple[bytes, list[tuple[int, bytes, array.array[int]]]]:
    """The block of an example after so many frames, and so many single steps from there on: PC, the block but for what was asked, and all samples so far."""
    live, found, heard = pacboard.LiveBoard(roms_of(name)), [], array.array("h")
    for _ in range(frames):
        live.run(pacboard.FRAME_MICROSECONDS)
    begun = live.block
    for _ in range(steps):
        heard = heard + live.step()[1]
        found.append((live.registers().pc, but_asked(live.block), heard))
    return begun, found


def try_stops() -> None:
    """Goes to addresses, to none, and with little room: each stop where single steps meet it."""
    for name, frames in (("starfall", 150), ("sunset", 30)):
        begun, steps = walked(name, frames, STEPS)
        live, random_of, stops, wrong = pacboard.LiveBoard(roms_of(name)), random.Random(name), 0, 0
        for _ in range(SETS):
            live.block, at, heard = begun, 0, array.array("h")
            places = set(random_of.sample(sorted({pc for pc, *_ in steps}), random_of.randrange(1, 12)))
            for at, (pc, block, wanted) in enumerate(steps):
                if pc in places:
                    ran, samples = live.until((1 << 32) - 1, pacboard.places_of(places) if stops % 2 else places)
                    stops, heard = stops + 1, heard + samples
                    wrong += (ran.why, ran.pc, ran.samples) != (pacboard.UNTIL_PLACE, pc, len(samples)) or heard != wanted or but_asked(live.block) != block
        row(f"{stops} stops of {name}, {wrong} of which are wrong", stops > 5000 and not wrong)
        live.block = begun
        whole = live.until(50_688)
        after, heard = but_asked(live.block), array.array("h")
        live.block, ran = begun, pacboard.Until(why=pacboard.UNTIL_FULL)
        left, calls = 50_688, 0
        while ran.why == pacboard.UNTIL_FULL:
            ran, samples = live.until(left, room=random_of.randrange(40))
            heard, left, calls = heard + samples, max(left - ran.ticks, 0), calls + 1
        row(f"a frame of {name} with little room", calls > 20 and (heard, but_asked(live.block)) == (whole[1], after) and len(heard) in (1584, 1585))
        board = pacboard.Board(roms_of(name))
        board.block = begun
        ran_of_block, samples = board.run(pacboard.FRAME_MICROSECONDS)
        row(f"a frame of {name} by a block", whole[1][: len(samples)] == samples and abs(whole[0].ticks - ran_of_block.ticks) <= 22 and whole[0].pictures == 1)


def try_cuts() -> None:
    """Cuts a second by until, step and run: a second at once leaves the same."""
    live, board, random_of, heard, frames = pacboard.LiveBoard(roms_of("starfall")), board_of("starfall"), random.Random(1), array.array("h"), 60
    for at in range(1, frames + 1):
        end = at * 50_688
        while live.registers().time < end - 100:
            if random_of.randrange(2):
                heard += live.step()[1]
            else:
                heard += live.until(random_of.randrange(min(20_000, end - 50 - live.registers().time)), [random_of.randrange(0x4000) for _ in range(3)])[1]
        heard += live.run(pacboard.FRAME_MICROSECONDS)[1]
    _, samples = board.run(frames * pacboard.FRAME_MICROSECONDS)
    row(f"{frames} frames in pieces", heard == samples and live.block == board.block)


def try_until() -> None:
    """A program that stops, time that is over, and what until doesn't take."""
    stops = pacboard.LiveBoard(b"\x00\xed\x00" + bytes(pacboard.ROMS_SIZE - 3))
    ran, samples = stops.until(1000, [0])
    row("a stop", (ran.why, ran.stop, ran.pc, bytes(ran.bytes), ran.ticks, len(samples)) == (pacboard.UNTIL_STOP, 1, 1, b"\xed\0\0\0", 4, 0))
    live: Any = pacboard.LiveBoard(bytes(pacboard.ROMS_SIZE))
    told = [(ran.why, ran.pc, ran.ticks) for ran, _ in (live.until(0, [0]), live.until(1), live.until(9), live.until(100, [0, 0xFFFF, 7]), live.until(100, [7]))]
    row("NOPs", told == [(1, 0, 0), (1, 1, 4), (1, 4, 12), (2, 7, 12), (1, 32, 100)])
    kept = live.block
    for words in ((-1,), (1 << 32,), (10**400,), (1, [-1]), (1, [1 << 16]), (1, [], -1), (1, [], 1 << 32)):
        row(f"until{repr(words)[:30]}: ValueError", fault_of(live.until, *words) == "ValueError" and live.block == kept)
    for words in ((1.0,), ("1",), (None,), (float("nan"),), (1, ["1"]), (1, [1.5]), (1, None), (1, 7), (1, [], "1"), (1, [[]])):
        row(f"until{repr(words)[:30]}: TypeError", fault_of(live.until, *words) == "TypeError" and live.block == kept)
    for size in (1, 255, 65_535, 65_537, 1 << 20):
        row(f"a set of {size} bytes", fault_of(live.until, 1, bytes(size)) == fault_of(live.until, 1, bytearray(size)) == "Refused" and live.block == kept)
    row("a set without a byte is without an address", live.until(40, b"")[0].why == pacboard.UNTIL_TIME)
    writer = pacboard.LiveBoard(bytes.fromhex("21004c36057e34c30000").ljust(pacboard.ROMS_SIZE, b"\0"))  # LD HL,4C00H; LD (HL),5; LD A,(HL); INC (HL); JP 0
    kinds = {"WRITE": (5, 0, 5, pacboard.WRITE), "READ": (6, 5, 5, pacboard.READ), "BOTH": (7, 5, 6, pacboard.WRITE)}
    tell: Callable[..., tuple[int, ...]] = lambda **more: (lambda ran: (ran.why, ran.pc, ran.address, ran.access, ran.before, ran.after))(writer.until(1000, **more)[0])
    for name, (pc, before, after, access) in kinds.items():
        row(f"an access: {name}", tell(watched={0x4C00: 3}) == (pacboard.UNTIL_ACCESS, pc, 0x4C00, access, before, after))
    wanted = (pacboard.UNTIL_ACCESS, 5, 0x4C00, pacboard.WRITE, 6, 5)
    row("of writes alone, by bytes", tell(watched=pacboard.watched_of({0x4C00: pacboard.WRITE})) == wanted)
    row("none elsewhere", tell(watched={0x4C01: 3, 0x4800: 3})[0] == pacboard.UNTIL_TIME)
    kept = live.block
    wrong_numbers: list[Any] = [{1 << 16: 1}, {-1: 1}, {0: 4}, {0: -1}]
    for watched in wrong_numbers:
        row(f"watched {watched}: ValueError", fault_of(lambda it=watched: live.until(1, watched=it)) == "ValueError" and live.block == kept)
    wrong_kinds: list[Any] = [{"0": 1}, {0: "1"}, {0: 1.0}, 7, None, [1]]
    for watched in wrong_kinds:
        row(f"watched {watched}: TypeError", fault_of(lambda it=watched: live.until(1, watched=it)) == "TypeError" and live.block == kept)
    row("no set of a byte", fault_of(lambda: live.until(1, watched=b"1")) == "Refused" and live.block == kept)
    live.close()
    row("until of a closed board", fault_of(live.until, 1) == "Closed")


def answer(it: pacboard.Calls, call: int, random_of: random.Random, kept: list[bytes]) -> object:
    """What a call answers, of whatever name, or the code with which it is refused."""
    number, at = random_of.randrange, random_of.randrange(len(kept))
    try:
        if call == 0:
            ran, samples = it.run(number(40_000))
            return bytes(ran), samples
        if call == 1:
            return it.peek(number(1 << 16), number(300))
        if call == 2:
            it.load(kept[0][: number(len(kept[0]))])
        if call == 3:
            it.__setstate__((it.roms, kept[at]))
        calls: list[Callable[[], object]] = [it.draw, it.save, it.reset, lambda: it.hold(number(1 << 16)), lambda: it.load(it.save())]
        return calls[call % len(calls)]()
    except pacboard.Refused as error:
        return error.code


def is_same(live: pacboard.LiveBoard, board: pacboard.Board, random_of: random.Random, kept: list[bytes]) -> bool:
    """Makes the same call on a live board and on a block: whether they answer the same, and are the same."""
    call, seed = random_of.randrange(12), random_of.random()
    one, two = (answer(it, call, random.Random(seed), kept) for it in (live, board))
    if random_of.randrange(8) == 0:
        kept.append(board.block)
    if random_of.randrange(8) == 0:
        live.block = board.block = random_of.choice(kept)
    return one == two and live.block == board.block


def try_same() -> None:
    """Lists of calls on live boards and on blocks."""
    for name in ("starfall", "hello"):
        live, board, random_of = pacboard.LiveBoard(roms_of(name), 0xC1), pacboard.Board(roms_of(name), 0xC1), random.Random(name)
        kept = [board.block]
        row(f"{CALLS} calls of a live {name} as of a block", all(is_same(live, board, random_of, kept) for _ in range(CALLS)) and len(set(kept)) > 10)


def try_closed() -> None:
    """Boards that are closed, once and twice; handles that are none, and the memory that closed ones leave."""
    with pacboard.LiveBoard(roms_of("starfall")) as live:
        played(live, 2)
        kept, copied, handle = live.block, copy.copy(live), pacboard.Handle(live.handle.at, live.handle.size, live.handle.seal)
        row("open", live.is_open and not live.handle.at % pacboard.ALIGNED)
        played(copied, 2)
        row("a copy is another board", copied.block != kept == live.block and copied.handle.at != handle.at)
        live.handle.seal ^= 1
        row("another seal", fault_of(live.reset) == fault_of(live.step) == "Closed")
        live.handle.seal ^= 1
        row("leaves the board", live.block == kept)
    anything: Any = live
    calls: list[tuple[Any, ...]] = [
        (live.close,), (live.reset,), (live.hold, 0), (live.run, 1), (live.step,), (live.draw,), (live.draw_into, bytearray(pacboard.RGBA_SIZE)), (live.peek, 0),
        (live.peek, 0, 0), (live.registers,), (live.save,), (live.load, kept), (live.put, kept), (live.put, kept, live.roms), (getattr, live, "block"),
        (setattr, live, "block", kept), (pickle.dumps, live), (copy.copy, live), (copy.deepcopy, live), (live.__getstate__,),
    ]  # fmt: skip
    for call, *words in calls:
        row(f"{call.__name__} of a closed board", fault_of(call, *words) == "Closed" and not live.is_open)
    row("its numbers come first", fault_of(anything.hold, -1) == "ValueError" and issubclass(pacboard.Closed, pacboard.Refused))
    live.__setstate__(copied.__getstate__())
    row("it may become a board again", live.is_open and live.block == copied.block and not fault_of(live.close))
    played(copied, 1)
    row("the copy goes on", copied.is_open and not fault_of(copied.close) and fault_of(copied.close) == "Closed")
    before = resource.getrusage(resource.RUSAGE_SELF).ru_maxrss
    for at in range(OPENED):
        one = pacboard.LiveBoard(roms_of("hello"))
        if at % 2:
            one.close()
    row(f"{OPENED} boards leave their memory", resource.getrusage(resource.RUSAGE_SELF).ru_maxrss - before < MOST_LEFT)


def try_wrong() -> None:
    """Numbers, lengths and types that no call takes: one error each, and nothing is changed."""
    for kind in KINDS:
        board: Any = kind(roms_of("starfall"))
        played(board, 3)
        kept, state, name = board.block, board.save(), kind.__name__
        numbers: list[tuple[Any, int]] = [(board.run, 32), (lambda count: board.run(1, count), 32), (board.hold, 16), (board.peek, 16), (lambda count: board.peek(0, count), 17),
                                          (lambda byte: kind(board.roms, byte), 8)]  # fmt: skip
        for at, (call, bits) in enumerate(numbers):
            row(f"{name}, call {at}: what is no whole number", all(fault_of(call, word) == "TypeError" for word in OTHERS if at != 1 or word is not None))
            row(f"{name}, call {at}: what {bits} bits don't hold", all(fault_of(call, word) == "ValueError" for word in (-1, 1 << bits, -(1 << 64), 1 << 64, 10**400)))
        lengths: list[tuple[Any, int]] = [(lambda roms: kind(roms), pacboard.ROMS_SIZE), (lambda block: setattr(board, "block", block), pacboard.BOARD_SIZE), (board.load, pacboard.STATE_SIZE),
                                          (board.draw_into, pacboard.RGBA_SIZE)]  # fmt: skip
        for at, (call, size) in enumerate(lengths):
            wrong = [bytearray(), bytearray(1), bytearray(size - 1), bytearray(size + 1), bytearray(4 * size)]
            row(f"{name}, length {at}", all(fault_of(call, word) == "Refused" for word in wrong))
            row(f"{name}, length {at}: no buffer", all(fault_of(call, word) == "TypeError" for word in (None, 0, size, 1.0, "text", [0] * size)))
        row(f"{name}: a buffer that isn't written to", fault_of(board.draw_into, bytes(pacboard.RGBA_SIZE)) == "TypeError")
        row(f"{name}: another state's digest", fault_of(board.load, state[:-1] + bytes([state[-1] ^ 1])) == "Refused")
        whole = bytearray(b"\xa5" * (pacboard.RGBA_SIZE + 64))
        board.draw_into(memoryview(whole)[32:-32])
        row(f"{name}: nothing beside a buffer", whole[:32] == whole[-32:] == b"\xa5" * 32 and whole[32:-32] == board.draw())
        row(f"{name} is as it was", board.block == kept)
    live = pacboard.LiveBoard(roms_of("starfall"))
    played(live, 3)
    kept = live.block
    for what, one in {"zeros": bytes(pacboard.BOARD_SIZE), "a flag too many": kept[:56] + b"\xff" + kept[57:], "a picture of no colours": kept[:3224] + b"\xff" * 64_532}.items():
        row(f"no live board of {what}", fault_of(live.put, one) == fault_of(setattr, live, "block", one) == "Refused" and live.block == kept)
    row("no other ROMs but of their length", fault_of(live.put, kept, live.roms[1:]) == "Refused" and len(live.roms) == pacboard.ROMS_SIZE and live.block == kept)
    live.put(kept, roms_of("hello"))
    row("other ROMs", live.block == kept and live.peek(0, 0x4000) == roms_of("hello")[:0x4000] == live.roms[:0x4000])


def try_pickles() -> None:
    """Pickles and copies boards."""
    for kind in KINDS:
        try_pickles_of(kind(roms_of("starfall")), kind(roms_of("hello")))


def try_pickles_of(board: pacboard.Calls, hello: pacboard.Calls) -> None:
    """Pickles and copies a board."""
    name = type(board).__name__
    played(board, FRAMES)
    for protocol in range(2, pickle.HIGHEST_PROTOCOL + 1):
        other = pickle.loads(pickle.dumps(board, protocol))
        row(f"a {name} pickled by protocol {protocol}", other.block == board.block and other.roms == board.roms and type(other) is type(board))
    copied, kept = copy.copy(board), board.block
    is_same = played(other, FRAMES) == played(copied, FRAMES)
    row(f"a {name} goes on as a copy does", is_same and other.block == copied.block)
    row("and the first stays", board.block == kept != other.block)
    state = board.__getstate__()
    row("a pickle is ROMs and block", state == (board.roms, kept) and len(pickle.dumps(board)) < len(board.roms) + len(kept) + 200)
    wrong = {"zeros": (board.roms, bytes(pacboard.BOARD_SIZE)), "a short block": (board.roms, kept[1:]), "short ROMs": (board.roms[1:], kept)}
    for what, one in wrong.items():
        row(f"no {name} of {what}", fault_of(hello.__setstate__, one) == "Refused")


def try_calls() -> None:
    """Reads memory, draws into buffers, and hands in what is none."""
    board = board_of("starfall")
    played(board, FRAMES)
    row("the ROM", board.peek(0, 0x4000) == board.roms[:0x4000])
    row("past the end", board.peek(0xFFFF, 2)[1:] == board.roms[:1] and board.peek(0x4C00, 0) == b"")
    row("all of memory", len(board.peek(0, 0x10000)) == 0x10000 and board.peek(0x4C00, 0x3F0) == board.view("work_ram")[:0x3F0])
    rgba = bytearray(pacboard.RGBA_SIZE)
    board.draw_into(rgba)
    row("drawn into a buffer", rgba == board.draw() and len(set(rgba)) > 2)
    live, other = pacboard.LiveBoard(board.roms), bytearray(pacboard.RGBA_SIZE)
    live.block = board.block
    for order in (pacboard.RGBA, pacboard.BGRA, 2, 255):
        live.draw_into(other, order)
        if order != pacboard.RGBA:
            other[::4], other[2::4] = other[2::4], other[::4]
        row(f"drawn in the order {order}", rgba == other)
    for wrong_order, fault in {256: "ValueError", -1: "ValueError", 1.5: "TypeError"}.items():
        row(f"no order {wrong_order}", fault_of(live.draw_into, other, wrong_order) == fault)
    kept = board.block
    anything: Any = board
    wrong: dict[str, list[tuple[Any, ...]]] = {
        "ValueError": [(board.peek, -1), (board.peek, 1 << 16), (board.peek, 0, -1), (board.peek, 0, 1 << 17), (board.view, "ram"), (board.hold, 1 << 16),
                       (board.run, -1), (board.run, 1 << 32), (board.run, 1, -1), (pacboard.Board, board.roms, 256)],
        "TypeError": [(anything.peek, "0"), (anything.peek, 0, 1.0), (anything.draw_into, b"0" * pacboard.RGBA_SIZE), (anything.draw_into, None),
                      (anything.hold, "P1_UP"), (anything.run, None), (anything.draw_into, memoryview(bytes(pacboard.RGBA_SIZE)))],
        "Refused": [(board.draw_into, bytearray(pacboard.RGBA_SIZE - 1)), (board.draw_into, bytearray()), (board.run, 16_500, 0)],
    }  # fmt: skip
    for name, calls in wrong.items():
        for call, *words in calls:
            told = ", ".join(repr(word)[:20] for word in words)
            row(f"{call.__name__}({told}): {name}", fault_of(call, *words) == name and board.block == kept)


def try_views() -> None:
    """Looks at the parts of a block where they are."""
    board = board_of("starfall")
    views = {part: board.view(part) for part in pacboard.PARTS}
    played(board, FRAMES)
    for part, (at, size) in pacboard.PARTS.items():
        row(f"{part}, as it is now", views[part] == board.block[at : at + size] and len(views[part]) == size)
    row("there is something", all(any(views[part]) for part in ("tile_ram", "colour_ram", "work_ram", "picture")))
    row("no view is written to", fault_of(views["work_ram"].__setitem__, 0, 1) == "TypeError")


def try_arrays() -> None:
    """The same as arrays of numpy, where it is there."""
    try:
        import numpy  # type: ignore[import,unused-ignore]  # pylint: disable=import-outside-toplevel
    except ImportError:
        print("LEFT OUT: arrays of numpy, which isn't here", file=sys.stderr, flush=True)
        row("no array without numpy", fault_of(board_of("hello").image) == "ModuleNotFoundError")
        return
    board = board_of("starfall")
    arrays = {part: board.array_of(part) for part in pacboard.PARTS}
    ran, samples = board.run(FRAMES * pacboard.FRAME_MICROSECONDS)
    for part, found in arrays.items():
        row(f"{part}, an array", found.tobytes() == bytes(board.view(part)) and found.dtype == numpy.uint8)
        row(f"{part}, no copy", numpy.shares_memory(found, board.view(part)) and not found.flags.writeable)
    row("the picture's colour numbers", arrays["picture"].shape == (pacboard.HEIGHT, pacboard.WIDTH))
    row("the picture", board.image().shape == (pacboard.HEIGHT, pacboard.WIDTH, 4) and board.image().tobytes() == board.draw())
    batch = numpy.zeros((3, pacboard.HEIGHT, pacboard.WIDTH, 4), numpy.uint8)
    board.draw_into(batch[1])
    row("drawn into a batch", batch[1].tobytes() == board.draw() and not batch[0].any() and not batch[2].any())
    row("not into what isn't in one piece", fault_of(board.draw_into, batch.transpose()[:, :, :, 0]) == "TypeError")
    heard = numpy.asarray(samples)
    row("samples without a copy", numpy.shares_memory(heard, samples) and heard.dtype == numpy.int16 and len(heard) == ran.samples)


def try_package() -> None:
    """Looks at where the package is, and tries its two scripts."""
    folder = pathlib.Path(pacboard.__file__).parent
    row("installed", not folder.is_relative_to(ROOT) and pacboard.shared_object() == str(folder / pacboard.SONAME))
    row("with hints", (folder / "py.typed").is_file())
    rom_blocks, scripts = (importlib.import_module(f"pacboard.{name}") for name in ("roms", "script"))
    program = (OUT / "starfall.roms").read_bytes()[: 4 * rom_blocks.QUARTER]
    row("pacboard.roms", rom_blocks.block_of(EXAMPLES / "set.toml", program) == (OUT / "starfall.roms").read_bytes())
    row("pacboard.script", scripts.held_in((EXAMPLES / "starfall.script").read_bytes()) == (OUT / "starfall.held").read_bytes())


def main() -> int:
    """Tries all of it."""
    if not (OUT / "starfall.roms").is_file():
        print((__doc__ or "").strip())
        return 2
    parts = (try_package, try_structs, try_calls, try_wrong, try_views, try_arrays, try_pickles, try_closed, try_steps, try_stops, try_cuts, try_until, try_same, try_beside,
             try_threads)  # fmt: skip
    for part in parts:
        part()
    print(f"{passed} passed, {failed} failed")
    return 1 if failed else 0


if __name__ == "__main__":
    sys.exit(main())
