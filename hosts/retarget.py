"""Makes code for another processor of a library for C: of the very code that was proved, as the kit hands it to its compiler for x86-64.

hosts/build keeps that code as LLVM's bitcode, one module with all that the library reaches, and as text little in it is of a processor: the layout
of data, which is the same where addresses have 64 bits; what each function says of its processor and its stack; and two things more.
The three functions by which the assembler takes memory from C are the target's own. And what picks of sixteen bytes by a vector of x86-64,
`pshufb`, is done by the target's own instruction, which gives 0 for a number of 16 or more: the numbers are cut to the bits that `pshufb` looks at,
so that both give the same. Any other function that isn't LLVM's own or in the module is a fault.
"""
import pathlib
import re
import subprocess
from dataclasses import dataclass

import library

OUT = library.OUT
HEAP = ("rattle_alloc", "rattle_realloc", "rattle_dealloc")
READ = "--target=x86_64-unknown-linux-gnu -Wno-override-module -Xclang -disable-llvm-passes -O0 -x ir -S -emit-llvm -o -".split()
COMPILE = "-Wno-override-module -x ir -c".split()

OF_X86 = re.compile(r'(?P<probes>(?: "probe-stack"="[^"]*")?(?: "stack-probe-size"="[^"]*")?) "target-cpu"="x86-64-v2"')
DECLARED = re.compile(r'^declare .*?@(?P<name>[\w.]+|"[^"]*")\(.*\)(?P<group>(?: #\d+)?)$', re.MULTILINE)
PSHUFB = re.compile(
    r"^  (?P<value>%[\w.]+) = call <16 x i8> @llvm\.x86\.ssse3\.pshuf\.b\.128\(<16 x i8> (?P<table>%[\w.]+), <16 x i8> (?P<numbers>%[\w.]+)\)$",
    re.MULTILINE,
)
PICKED = (
    r"  \g<value>.seen = and <16 x i8> \g<numbers>, splat (i8 -113)" + "\n"
    r"  \g<value> = call <16 x i8> @{picks}(<16 x i8> \g<table>, <16 x i8> \g<value>.seen)"
)


class Unknown(Exception):
    """The library's code isn't as it is known here."""


@dataclass(frozen=True)
class Target:
    """Another processor: LLVM's name of it; the function that is its instruction in the place of `pshufb`; what a function says of it, in the place
    of what it said of x86-64; what the declaration of a function for memory ends with, where it isn't as it was; and the compiler's flags."""

    name: str
    picks: str
    says: str
    heap: str | None
    flags: str


TARGETS = {
    # Each browser has vectors since 2023 (Chromium since 91, Firefox since 89, Safari since 16.4); loops as they stand make a tenth less of a page to
    # fetch. What takes memory are imports of the module, which hosts/web/heap.js has.
    "page": Target(
        "wasm64-unknown-unknown", "llvm.wasm.swizzle", "", ' nounwind "wasm-import-module"="host" "wasm-import-name"="host_{name}"',
        "-mcpu=lime1 -msimd128 -fno-unroll-loops -O2",
    ),
    # As the kit has it for that processor. What takes memory is in hosts/c/heap.c.
    "aarch64": Target(
        "aarch64-unknown-linux-gnu", "llvm.aarch64.neon.tbl1.v16i8", r'\g<probes> "frame-pointer"="non-leaf" "target-cpu"="generic"', None,
        "-march=armv8-a -mllvm -trap-unreachable -ffunction-sections -fdata-sections -fPIC -O3",
    ),
}  # fmt: skip


def clang() -> pathlib.Path:
    """The kit's compiler."""
    return library.kit() / "toolchain/bin/clang"


def text_of(bitcode: pathlib.Path) -> str:
    """The text of a library's bitcode, as it was proved."""
    return subprocess.run([clang(), *READ, bitcode], stdout=subprocess.PIPE, text=True, check=True).stdout


def layout(target: Target) -> str:
    """The two lines that say how a target lays data out, and which it is."""
    words: list[str | pathlib.Path] = [clang(), f"--target={target.name}", "-x", "c", "-S", "-emit-llvm", "/dev/null", "-o", "-"]
    said = subprocess.run(words, stdout=subprocess.PIPE, text=True, check=True).stdout
    return "".join(line + "\n" for line in said.splitlines() if line.startswith("target "))


def declaration(found: re.Match[str], target: Target) -> str:
    """A function that the module declares: one for memory, or LLVM's own of no processor."""
    name, group = found["name"], found["group"]
    if name in HEAP and target.heap is not None:
        return found[0].removesuffix(group) + target.heap.format(name=name.removeprefix("rattle_"))
    if name not in HEAP and (not name.startswith("llvm.") or name.startswith("llvm.x86.")):
        raise Unknown(f"it calls {name}")
    return found[0]


def retargeted(text: str, target: Target) -> str:
    """The text of a library for x86-64, for a target."""
    text, lines = re.subn(r"^target (?:datalayout|triple) = .*\n", "", text, flags=re.MULTILINE)
    if lines != 2:
        raise Unknown("it doesn't say for which processor it is")
    text, shuffles = PSHUFB.subn(PICKED.format(picks=target.picks), OF_X86.sub(target.says, text))
    if shuffles:
        text = re.sub(r"^declare .*@llvm\.x86\.ssse3\.pshuf\.b\.128\(.*\n", "", text, flags=re.MULTILINE)
    text = DECLARED.sub(lambda found: declaration(found, target), text)
    if "x86" in re.sub(r"^source_filename.*$|^; .*$", "", text, flags=re.MULTILINE):
        raise Unknown("something in it is of x86-64 yet")
    return layout(target) + text + f"declare <16 x i8> @{target.picks}(<16 x i8>, <16 x i8>)\n" * (shuffles > 0)


def archive(text: str, target: Target, to: pathlib.Path) -> None:
    """Compiles the text of a library for a target: a static library, beside which the text is left, with the end .ll."""
    source, compiled = to.with_suffix(".ll"), to.with_suffix(".o")
    source.write_text(text)
    library.run(clang(), to.parent, f"--target={target.name}", *target.flags.split(), *COMPILE, source.name, "-o", compiled.name)
    to.unlink(missing_ok=True)
    library.run(library.kit() / "toolchain/bin/llvm-ar", to.parent, "qcsD", to.name, compiled.name)
    compiled.unlink()
