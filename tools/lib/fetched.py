#!/usr/bin/env python3
"""Fetches the packages of Debian on which parts of the gate stand, where they aren't here: shared by these parts.

    tools/lib/fetched.py

fetches all of FETCHED at once, which the gate does while it proves. It needs the superuser and apt-get; what can't be fetched is left out by the part
that stands on it, which says so.
"""
import os
import pathlib
import shutil
import subprocess
import sys

LONGEST = 300  # seconds of a fetch
FETCHED = {  # what tells that a package is here: a file of it, or a command
    "chromium": ("chromium", "chromium-browser", "google-chrome"),
    "gcc-aarch64-linux-gnu": ("aarch64-linux-gnu-gcc",),
    "libc6-dev-arm64-cross": ("/usr/aarch64-linux-gnu/lib/libc.a",),
    "libsdl2-dev": ("/usr/include/SDL2/SDL.h",),
    "mypy": ("mypy",),
    "node-typescript": ("tsc",),
    "qemu-user": ("qemu-aarch64",),
    "retroarch-dev": ("/usr/include/libretro-common/libretro.h",),
    "xvfb": ("/usr/bin/Xvfb",),
}
LATER = {"python3-numpy": ("/usr/lib/python3/dist-packages/numpy/__init__.py",), "python3-pip": ("/usr/bin/pip3",)}  # which few machines lack


def is_here(package: str) -> bool:
    """Whether a package is here."""
    return any(pathlib.Path(name).exists() or shutil.which(name) for name in (FETCHED | LATER)[package])


def apt_get(*words: str) -> bool:
    """Has apt-get do something, once no other process does anything: whether it's done."""
    line = ["apt-get", "-o", f"DPkg::Lock::Timeout={LONGEST}", *words]
    try:
        return not subprocess.run(line, stdout=subprocess.DEVNULL, stderr=subprocess.DEVNULL, check=False, timeout=LONGEST).returncode
    except subprocess.TimeoutExpired:
        return False


def fetch(packages: list[str]) -> None:
    """Fetches packages. A new machine has no list of them yet: that is fetched where they aren't known."""
    words = ["install", "-y", "--no-install-recommends", *packages]
    if packages and os.geteuid() == 0 and shutil.which("apt-get") and not apt_get(*words) and apt_get("update"):
        apt_get(*words)


def has(package: str) -> bool:
    """Whether a package is here, which is fetched where it isn't and can be; a line says where it can't."""
    if not is_here(package):
        fetch([package])
    if not is_here(package):
        print(f"LEFT OUT: what stands on {package}, which isn't here and can't be fetched", file=sys.stderr, flush=True)
    return is_here(package)


if __name__ == "__main__":
    if "--help" in sys.argv[1:]:
        sys.exit(print((__doc__ or "").strip()))
    fetch([package for package in FETCHED if not is_here(package)])
