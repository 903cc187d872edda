// Bytes as texts, packed and unpacked; and waiting for the next piece of time.

export const MOST = 16 << 20; // bytes of a file that is taken

// Something that was handed in is refused: a code or a name, and the cause.
export class Fault extends Error {
    constructor(name, cause, place = '') {
        super(cause);
        this.name = name;
        this.place = place;
    }
}

// A number in hexadecimal, with so many digits.
export function hex(value, digits = 4) {
    return value.toString(16).toUpperCase().padStart(digits, '0');
}

// A size as people read it.
export function counted(value) {
    return value.toLocaleString('en-US');
}

// Whether two arrays of bytes are equal.
export function equal(one, other) {
    if (one.length !== other.length) return false;
    for (let at = 0; at < one.length; at++) if (one[at] !== other[at]) return false;
    return true;
}

// Pieces of bytes as one.
function joined(pieces, size) {
    const bytes = new Uint8Array(size);
    let at = 0;
    for (const piece of pieces) {
        bytes.set(piece, at);
        at += piece.length;
    }
    return bytes;
}

// What a stream gives, as long as it isn't longer than so many bytes.
async function drained(stream, most, name) {
    const reader = stream.getReader(), pieces = [];
    let size = 0;
    for (;;) {
        const { done, value } = await reader.read();
        if (done) return joined(pieces, size);
        size += value.length;
        if (size > most) {
            await reader.cancel().catch(() => undefined);
            throw new Fault('too large', `${name} has more than ${counted(most)} bytes once it is unpacked`);
        }
        pieces.push(value);
    }
}

// Passes bytes through a stream that packs or unpacks.
function passed(bytes, stream, most, name) {
    const writer = stream.writable.getWriter();
    writer.write(bytes).catch(() => undefined);
    writer.close().catch(() => undefined);
    return drained(stream.readable, most, name);
}

// Deflates bytes.
export function deflated(bytes) {
    return passed(bytes, new CompressionStream('deflate-raw'), Infinity, '');
}

// Inflates bytes, to so many at most.
export async function inflated(bytes, most = MOST, name = 'it') {
    try {
        return await passed(bytes, new DecompressionStream('deflate-raw'), most, name);
    } catch (error) {
        if (error instanceof Fault) throw error;
        throw new Fault('damaged', `${name} can't be unpacked: its bytes are no deflated ones`);
    }
}

// Bytes as base64.
export function base64(bytes) {
    let text = '';
    for (let at = 0; at < bytes.length; at += 32766) text += String.fromCharCode(...bytes.subarray(at, at + 32766));
    return btoa(text);
}

// The bytes of base64, of the form for links too.
export function unbase64(text) {
    let binary;
    try {
        binary = atob(text.replaceAll('-', '+').replaceAll('_', '/'));
    } catch {
        throw new Fault('damaged', 'its letters are no base64');
    }
    return Uint8Array.from(binary, (letter) => letter.charCodeAt(0));
}

// Bytes as base64 for a link.
export function linkable(bytes) {
    return base64(bytes).replaceAll('+', '-').replaceAll('/', '_').replaceAll('=', '');
}

// Bytes as text, each a character, and back: a source is bytes, whatever they mean.
export function textOf(bytes) {
    return new TextDecoder('utf-8').decode(bytes);
}

export function bytesOf(text) {
    return new TextEncoder().encode(text);
}

// The SHA-1 of bytes in hexadecimal; nothing where the browser has none, as over plain http.
export async function digestOf(bytes) {
    if (!globalThis.crypto?.subtle) return null;
    const digest = new Uint8Array(await crypto.subtle.digest('SHA-1', bytes));
    return Array.from(digest, (byte) => byte.toString(16).padStart(2, '0')).join('');
}

// Lets everything else on the page go first.
export function breath() {
    return new Promise((then) => {
        const { port1, port2 } = new MessageChannel();
        port1.onmessage = () => {
            port1.close();
            then();
        };
        port2.postMessage(0);
    });
}

// Does the steps of a generator in slices, until it ends (its value) or is called off (undefined).
export async function sliced(steps, isWanted = () => true, milliseconds = 12) {
    let since = performance.now();
    for (;;) {
        const { done, value } = steps.next();
        if (done) return value;
        if (performance.now() - since < milliseconds) continue;
        await breath();
        if (!isWanted()) return undefined;
        since = performance.now();
    }
}
