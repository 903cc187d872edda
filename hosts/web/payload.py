"""The files that are inside a page of the studio, or of a published game: one base64 text, deflated."""
import base64
import json
import re
import zlib

LEVEL = 9


def deflated(content: bytes) -> bytes:
    """Bytes without a head, deflated."""
    packer = zlib.compressobj(LEVEL, zlib.DEFLATED, -15, 9)
    return packer.compress(content) + packer.flush()


def packed(files: dict[str, bytes]) -> str:
    """Files as one base64 text: deflated together, after the length of the list of their names and sizes, four bytes, and that list."""
    head = json.dumps({name: len(content) for name, content in files.items()}, separators=(",", ":")).encode()
    return base64.b64encode(deflated(len(head).to_bytes(4, "little") + head + b"".join(files.values()))).decode()


def unpacked(page: str) -> dict[str, bytes]:
    """The files that a page has."""
    found = re.search(r'<script id="payload" type="text/plain">([A-Za-z0-9+/=]*)</script>', page)
    if not found:
        raise ValueError("the page has no payload")
    content = zlib.decompress(base64.b64decode(found[1]), -15)
    size = int.from_bytes(content[:4], "little")
    files, at = {}, 4 + size
    for name, length in json.loads(content[4:at]).items():
        files[name] = content[at : at + length]
        at += length
    return files
