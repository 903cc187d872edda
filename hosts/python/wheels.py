#!/usr/bin/env python3
"""Makes the wheel of hosts/python: the package pacboard, with the board's shared library inside it.

    pip install hosts/python
    hosts/python/wheels.py FOLDER

pip calls `build_wheel`; the other command leaves the wheel in a folder. Nothing is fetched, and nothing but Python and `cc` is needed, once
hosts/build has left hosts/out/libpac_host.a. The package has pacboard.py, and as pacboard.roms and pacboard.script hosts/roms.py and
hosts/script.py. The same files give the same bytes. Beside the licences of this repository the wheel has those of the kit's crates that are
in the library, where the kit's `rt` is on the PATH.
"""
import base64
import hashlib
import os
import pathlib
import subprocess
import sys
import tomllib
import zipfile

HERE = pathlib.Path(__file__).resolve().parent
ROOT = HERE.parents[1]
sys.path[:0] = [str(ROOT / "hosts"), str(ROOT / "tools/lib")]

import installed
import parts_list

LIBRARY = ROOT / "hosts/out/libpac_host.a"
TAG = "py3-none-linux_x86_64"
Files = dict[str, bytes]


def licences() -> Files:
    """The licences, by their names: those of this repository, and of what is linked."""
    found = {name: (ROOT / name).read_bytes() for name in ("LICENSE-APACHE", "LICENSE-MIT")}
    try:
        parts = parts_list.parts_below(["pac_host"])
    except OSError:  # (without the kit)
        return found
    return found | {f"{part.name}/{text.name}": text.read_bytes() for part in parts if part.licence != parts_list.OURS for text in part.texts}


def metadata(project: dict[str, object], version: str, names: list[str]) -> str:
    """The file METADATA."""
    account = (HERE / "pacboard.py").read_text().split('"""')[1]
    lines = ["Metadata-Version: 2.1", f"Name: {project['name']}", f"Version: {version}", f"Summary: {project['description']}"]
    lines += [f"Requires-Python: {project['requires-python']}", f"License: {parts_list.OURS}"]
    lines += [f"License-File: {name}" for name in names]
    lines += ["Provides-Extra: numpy", 'Requires-Dist: numpy; extra == "numpy"', "Description-Content-Type: text/plain"]
    return "\n".join([*lines, "", account])


def files_of(version: str) -> Files:
    """All files of the wheel but its record."""
    project = tomllib.loads((HERE / "pyproject.toml").read_text())["project"]
    texts = licences()
    about = f"{project['name']}-{version}.dist-info"
    return {
        "pacboard/__init__.py": (HERE / "pacboard.py").read_bytes(),
        "pacboard/py.typed": b"",
        "pacboard/roms.py": (ROOT / "hosts/roms.py").read_bytes(),
        "pacboard/script.py": (ROOT / "hosts/script.py").read_bytes(),
        f"pacboard/{installed.SONAME}": installed.shared(LIBRARY),
        f"{about}/METADATA": metadata(project, version, sorted(texts)).encode(),
        f"{about}/WHEEL": f"Wheel-Version: 1.0\nGenerator: wheels.py\nRoot-Is-Purelib: false\nTag: {TAG}\n".encode(),
        **{f"{about}/licenses/{name}": text for name, text in texts.items()},
    }


def record(files: Files) -> str:
    """The lines of the file RECORD about these: each one's digest and size."""
    digest = lambda content: base64.urlsafe_b64encode(hashlib.sha256(content).digest()).decode().rstrip("=")
    return "".join(f"{name},sha256={digest(content)},{len(content)}\n" for name, content in files.items())


def build_wheel(folder: str, settings: object = None, metadata_folder: str | None = None) -> str:
    """Leaves the wheel in a folder, and answers its name."""
    del settings, metadata_folder
    if not LIBRARY.is_file():
        raise FileNotFoundError(f"{LIBRARY} isn't there: hosts/build makes it")
    version = installed.version()
    files = files_of(version)
    name, list_name = f"pacboard-{version}-{TAG}.whl", f"pacboard-{version}.dist-info/RECORD"
    files[list_name] = f"{record(files)}{list_name},,\n".encode()
    with zipfile.ZipFile(os.path.join(folder, name), "w", zipfile.ZIP_DEFLATED) as wheel:
        for path, content in files.items():
            entry = zipfile.ZipInfo(path)  # (of 1980)
            entry.compress_type, entry.external_attr = zipfile.ZIP_DEFLATED, 0o100644 << 16
            wheel.writestr(entry, content)
    return name


def main(words: list[str]) -> int:
    """Leaves the wheel in a folder."""
    if len(words) != 1 or words[0].startswith("-"):
        print((__doc__ or "").strip())
        return 0 if "--help" in words else 2
    try:
        os.makedirs(words[0], exist_ok=True)
        print(pathlib.Path(words[0], build_wheel(words[0])))
    except (OSError, ValueError, subprocess.CalledProcessError) as error:
        print(f"wheels.py: {error}", file=sys.stderr)
        return 3
    return 0


if __name__ == "__main__":
    sys.exit(main(sys.argv[1:]))
