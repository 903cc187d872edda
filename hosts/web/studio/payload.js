// The files that are inside the page: modules, examples, their set; and a page's payload made of files.

import { base64, bytesOf, deflated, inflated, textOf, unbase64 } from './bytes.js';

// The files of a payload's text, by their names.
export async function filesOf(text) {
    const content = await inflated(unbase64(text.trim()), 64 << 20, 'the page');
    const size = new DataView(content.buffer).getUint32(0, true), files = {};
    let at = 4 + size;
    for (const [name, length] of Object.entries(JSON.parse(textOf(content.subarray(4, at))))) {
        files[name] = content.slice(at, at + length);
        at += length;
    }
    return files;
}

// Files as a payload's text.
export async function payloadOf(files) {
    const names = Object.fromEntries(Object.entries(files).map(([name, { length }]) => [name, length]));
    const head = bytesOf(JSON.stringify(names)), parts = [new Uint8Array(Uint32Array.of(head.length).buffer), head, ...Object.values(files)];
    return base64(await deflated(new Uint8Array(await new Blob(parts).arrayBuffer())));
}

// What this page has inside.
export function filesOfPage() {
    return filesOf(document.getElementById('payload').textContent);
}
