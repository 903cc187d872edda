"""Tells gdb how a program's calls follow one another on the board's stack, in a gdb that knows z80:

    source hosts/gdb/frames.py

gdb's own way to find them ends gdb itself at a step, a write or `backtrace` (13.1, and 16.3 by its source: z80-tdep.c has `.addr () > 0` where
`.is_addr ()` is meant). Here a routine's caller goes on at the first word on the stack that is an address in ROM after a CALL or RST; where
there is none, the calls end.
"""
# (only gdb has its module, and mypy takes this folder for it)
# mypy: disable-error-code="attr-defined,import,index,misc,name-defined"
from typing import NamedTuple

import gdb  # pylint: disable=import-error
import gdb.unwinder  # pylint: disable=import-error,no-name-in-module

ROM_SIZE, RAM_END = 0x4000, 0x5000  # the stack is below RAM_END


class Place(NamedTuple):
    """A call, as gdb tells one from another: by where the stack was before it."""

    sp: gdb.Value


def is_after_call(address: int) -> bool:
    """Whether what stands before an address is CALL nn, CALL cc,nn or RST p."""
    first, _, last = (byte[0] for byte in gdb.selected_inferior().read_memory((address - 3) & 0xFFFF, 3))
    return first == 0xCD or first & 0xC7 == 0xC4 or last & 0xC7 == 0xC7


class Calls(gdb.unwinder.Unwinder):
    """The calls of a program for Z80."""

    def __init__(self) -> None:
        super().__init__("calls on the board's stack")

    def __call__(self, frame: gdb.PendingFrame) -> gdb.UnwindInfo | None:
        """What is known of the caller of a frame."""
        if frame.architecture().name() != "z80":
            return None
        sp, pc = frame.read_register("sp"), frame.read_register("pc")
        top = int(sp) & 0xFFFF
        stack = bytes(gdb.selected_inferior().read_memory(top, RAM_END - top)) if top < RAM_END else b""
        for at in range(0, len(stack) - 1, 2):
            address = stack[at] | stack[at + 1] << 8
            if address < ROM_SIZE and is_after_call(address):
                before = gdb.Value(top + at + 2).cast(sp.type)
                info = frame.create_unwind_info(Place(before))
                info.add_saved_register("sp", before)
                info.add_saved_register("pc", gdb.Value(address).cast(pc.type))
                return info
        return frame.create_unwind_info(Place(gdb.Value(0).cast(sp.type)))


gdb.unwinder.register_unwinder(None, Calls(), replace=True)
