"""The list of parts and licences of a release, as an SPDX 2.3 document: the crates of this repository below the program and the library,
by crates.txt, and those of the kit that are linked with them, by what the kit's libraries say of themselves.

A part of the kit that has licence files has the licences of these files, and one that has none, as the standard library, NOASSERTION: the
kit says nothing of it.
"""
import hashlib
import os
import pathlib
import re
import shutil
import time
from dataclasses import dataclass

ROOT = pathlib.Path(__file__).resolve().parents[2]
OURS = "MIT OR Apache-2.0"
LINE = re.compile(r"(\w+)(?: +\w+)*: *(.*)")
VERSION = re.compile(r"the Rust crate `([\w-]+)` (\d+\.\d+\.\d+)")
# What each licence's text says, and no other's.
TEXTS = {
    "MIT": "Permission is hereby granted, free of charge",
    "Apache-2.0": "TERMS AND CONDITIONS FOR USE, REPRODUCTION",
    "BSD-3-Clause": "Neither the name of",
    "Unicode-3.0": "UNICODE LICENSE V3",
}


@dataclass
class Part:
    """A crate: its name, what it uses, its licence by SPDX, the files with the licence's text, and the Rust crate that it is a port of."""

    name: str
    uses: list[str]
    licence: str
    texts: list[pathlib.Path]
    port_of: str = ""


def kit_folder() -> pathlib.Path:
    """Where the kit is."""
    command = shutil.which("rt")
    if command is None:
        raise OSError("the kit's command rt isn't on the PATH")
    return pathlib.Path(os.path.realpath(command)).parent.parent


def licence_of(texts: list[pathlib.Path]) -> str:
    """The licences that files have, at one's choice; those of a crate's files are told by their texts."""
    content = "\n".join(path.read_text(errors="replace") for path in texts)
    found = [name for name, text in TEXTS.items() if text in content]
    return " OR ".join(found) if found else "NOASSERTION"


def kit_part(kit: pathlib.Path, name: str) -> Part:
    """A crate of the kit."""
    folder, built = kit / "rattle" / name, kit / "rlibs" / f"{name}.rlib" / "format"
    uses = re.findall(r"^dep (\w+)$", built.read_text(errors="replace"), re.M)
    texts = sorted(folder.glob("LICENSE*"))
    page = folder / "README.md"
    found = VERSION.search(page.read_text()) if page.is_file() else None
    return Part(name, uses, licence_of(texts), texts, f"{found[1]} {found[2]}" if found else "")


def parts_below(tops: list[str]) -> list[Part]:
    """The crates that are linked where these of crates.txt are, and these themselves, by their names."""
    rows = [LINE.fullmatch(line.strip()) for line in (ROOT / "crates.txt").read_text().splitlines() if not line.startswith("#")]
    ours = {row[1]: row[2].split() for row in rows if row}
    kit, found, waiting = kit_folder(), dict[str, Part](), [*tops]
    while waiting:
        name = waiting.pop()
        if name in found:
            continue
        if name in ours:  # each crate has the kit's standard library
            texts = [ROOT / "LICENSE-MIT", ROOT / "LICENSE-APACHE"]
            found[name] = Part(name, [*ours[name], "std"], OURS, texts)
        else:
            found[name] = kit_part(kit, name)
        waiting += found[name].uses
    return [found[name] for name in sorted(found)]


def package(part: Part, version: str, kit: str) -> dict[str, object]:
    """A part's package in the document."""
    is_ours = part.licence == OURS and ROOT / "LICENSE-MIT" in part.texts
    found: dict[str, object] = {
        "SPDXID": f"SPDXRef-{part.name.replace('_', '-')}",
        "name": part.name,
        "versionInfo": version if is_ours else kit,
        "downloadLocation": "NOASSERTION",
        "filesAnalyzed": False,
        "licenseConcluded": part.licence,
        "licenseDeclared": part.licence,
        "copyrightText": "NOASSERTION",
    }
    if part.port_of:
        found["comment"] = f"a port of the Rust crate {part.port_of}"
    return found


def document(name: str, version: str, parts: list[Part], files: dict[str, bytes], made_at: int) -> dict[str, object]:
    """The document about a release of this name and version, with these files, made at a time in seconds of 1970."""
    kit = (kit_folder() / "KIT-ID").read_text().strip()
    sums = {path: (hashlib.sha1(content).hexdigest(), hashlib.sha256(content).hexdigest()) for path, content in sorted(files.items())}
    whole = hashlib.sha256(repr(sorted(sums.items())).encode()).hexdigest()
    packages = [package(part, version, kit) for part in parts]
    relations = [("SPDXRef-DOCUMENT", "DESCRIBES", "SPDXRef-pacboard"), ("SPDXRef-DOCUMENT", "DESCRIBES", "SPDXRef-pac-host")]
    for part in parts:
        relations += [(f"SPDXRef-{part.name.replace('_', '-')}", "DEPENDS_ON", f"SPDXRef-{other.replace('_', '-')}") for other in part.uses]
    return {
        "spdxVersion": "SPDX-2.3",
        "dataLicense": "CC0-1.0",
        "SPDXID": "SPDXRef-DOCUMENT",
        "name": name,
        "documentNamespace": f"https://spdx.org/spdxdocs/{name}-{whole}",
        "creationInfo": {
            "created": time.strftime("%Y-%m-%dT%H:%M:%SZ", time.gmtime(made_at)),
            "creators": ["Tool: bin/release"],
        },
        "packages": packages,
        "files": [
            {
                "SPDXID": f"SPDXRef-file-{at}",
                "fileName": f"./{path}",
                "checksums": [{"algorithm": "SHA1", "checksumValue": one}, {"algorithm": "SHA256", "checksumValue": other}],
                "licenseConcluded": "NOASSERTION",
                "copyrightText": "NOASSERTION",
            }
            for at, (path, (one, other)) in enumerate(sums.items(), 1)
        ],
        "relationships": [
            {"spdxElementId": one, "relationshipType": kind, "relatedSpdxElement": other} for one, kind, other in relations
        ],
    }
