// Reads a zip: the names and bytes of its files, none of which may be larger than a file that is taken. Whatever a file says of its size, no
// more than that is unpacked.

import { counted, Fault, inflated, textOf } from './bytes.js';

const END = 0x06054b50, ENTRY = 0x02014b50, LOCAL = 0x04034b50; // what the records begin with
const END_SIZE = 22, ENTRY_SIZE = 46, LOCAL_SIZE = 30, COMMENT = 65535;
const STORED = 0, DEFLATED = 8;
const FILES = 200; // in a zip
export const LARGEST = 1 << 20; // bytes of a file in one

// Whether bytes begin like a zip.
export function isZip(bytes) {
    return bytes[0] === 0x50 && bytes[1] === 0x4b && (bytes[2] === 3 || bytes[2] === 5);
}

// The place of the record at the end.
function endOf(view, name) {
    for (let at = view.byteLength - END_SIZE; at >= Math.max(0, view.byteLength - END_SIZE - COMMENT); at--) {
        if (view.getUint32(at, true) === END) return at;
    }
    throw new Fault('no zip', `${name} has no end of a zip's list of files`);
}

// The bytes of a file of a zip.
async function unpacked(bytes, view, entry, name) {
    const { method, packed, size, at } = entry;
    if (size > LARGEST) throw new Fault('too large', `${name} would have ${counted(size)} bytes; in a zip a file has ${counted(LARGEST)} at most`);
    if (at + LOCAL_SIZE > bytes.length || view.getUint32(at, true) !== LOCAL) throw new Fault('damaged', `${name} isn't where the zip says`);
    const from = at + LOCAL_SIZE + view.getUint16(at + 26, true) + view.getUint16(at + 28, true);
    if (from + packed > bytes.length) throw new Fault('damaged', `${name} goes on past the zip's end`);
    const piece = bytes.subarray(from, from + packed);
    if (method !== STORED && method !== DEFLATED) throw new Fault('unknown', `${name} is packed by method ${method}; 0 and 8 are read`);
    const content = method === STORED ? piece.slice() : await inflated(piece, LARGEST, name);
    if (content.length !== size) throw new Fault('damaged', `${name} has ${counted(content.length)} bytes, and ${counted(size)} are told`);
    return content;
}

// The files of a zip, by their names without the folders that all are in.
export async function filesIn(bytes, name) {
    const view = new DataView(bytes.buffer, bytes.byteOffset, bytes.length), end = endOf(view, name), files = [];
    const count = view.getUint16(end + 10, true);
    if (count > FILES) throw new Fault('too many', `${name} has ${counted(count)} files; ${FILES} are the most`);
    for (let file = 0, at = view.getUint32(end + 16, true); file < count; file++) {
        if (at + ENTRY_SIZE > bytes.length || view.getUint32(at, true) !== ENTRY) throw new Fault('damaged',
            `${name}: its list of files ends too early`);
        const [length, extra, comment] = [28, 30, 32].map((field) => view.getUint16(at + field, true));
        const entry = {
            flags: view.getUint16(at + 8, true), method: view.getUint16(at + 10, true), packed: view.getUint32(at + 20, true),
            size: view.getUint32(at + 24, true), at: view.getUint32(at + 42, true),
        };
        const path = textOf(bytes.subarray(at + ENTRY_SIZE, at + ENTRY_SIZE + length));
        if (entry.flags & 1) throw new Fault('locked', `${path} in ${name} is encrypted`);
        if (!path.endsWith('/')) files.push({ name: path, bytes: await unpacked(bytes, view, entry, `${path} in ${name}`) });
        at += ENTRY_SIZE + length + extra + comment;
    }
    return files;
}

