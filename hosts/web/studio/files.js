// What comes into the studio as files, judged by what is in them: a source, a script, a state, a set as a manifest with its files or as dumps, or
// a zip of such. Each is refused by its name and a cause, and then nothing of it is used.

import { counted, Fault, MOST, textOf } from './bytes.js';
import { hasSet, setOf } from './set.js';
import { masksOfFile } from './scripts.js';
import { filesIn, isZip } from './zip.js';

const STATE = 'PACSTATE';
const LINES = 65535; // of a source
const SOURCE = /\.(asm|z80|s)$/i, SCRIPT = /\.script$/i, STATE_NAME = /\.state$/i;
const PROGRAM = 16384; // bytes

// The bytes of a file that the browser hands over.
export async function readFile(file) {
    if (file.size > MOST) throw new Fault('too large', `${file.name} has ${counted(file.size)} bytes; ${counted(MOST)} are the most`);
    return { name: file.webkitRelativePath || file.name, bytes: new Uint8Array(await file.arrayBuffer()) };
}

// A source's text; refused where it isn't text that an editor can keep as it is.
export function sourceOf({ name, bytes }) {
    const text = textOf(bytes);
    if (bytes.includes(0) || text.includes('\ufffd')) throw new Fault('no source', `${name} isn't text: it has bytes that an editor can't keep`);
    const lines = text.split('\n').length - (text.endsWith('\n') ? 1 : 0);
    if (lines > LINES) throw new Fault('A7', `${name} has ${counted(lines)} lines; ${counted(LINES)} are the most`);
    return text.replaceAll('\r\n', '\n');
}

// Files with those of zips among them in their places.
async function spread(files) {
    const all = [];
    for (const file of files) all.push(...(isZip(file.bytes) ? await filesIn(file.bytes, file.name) : [file]));
    return all;
}

// What files are: { source, script, state, set, program }, each where there is one. All are looked at before any is taken.
export async function taken(files) {
    const all = await spread(files), found = {}, isOne = (name) => name.split('/').at(-1);
    for (const file of all) {
        if (SOURCE.test(file.name)) {
            if (found.source) throw new Fault('two sources', `${found.source.name} and ${file.name} are both sources`);
            found.source = { name: isOne(file.name), text: sourceOf(file) };
        } else if (SCRIPT.test(file.name)) found.script = { name: isOne(file.name), masks: masksOfFile(file) };
        else if (STATE_NAME.test(file.name) || textOf(file.bytes.subarray(0, 8)) === STATE) found.state = { name: isOne(file.name),
            bytes: file.bytes };
        else if (/\.rom$/i.test(file.name) && file.bytes.length === PROGRAM) found.program = { name: isOne(file.name), bytes: file.bytes };
    }
    if (hasSet(all)) found.set = await setOf(all, found.source !== undefined || found.program !== undefined
        || !all.some(({ name }) => /\.6[efhj]$/i.test(name)) && !programIn(all));
    if (Object.keys(found).length === 0) {
        const names = all.slice(0, 3).map(({ name }) => name).join(', ');
        throw new Fault('unknown', `${names || 'the zip'}: no source (.asm), script (.script), state (.state), manifest (.toml) or dump named after its chip (.6e to .3m)`);
    }
    return found;
}

// Whether a manifest among files has a program of its own.
function programIn(files) {
    return files.some(({ name, bytes }) => /\.toml$/i.test(name) && /^\s*\[\[\s*program\s*\]\]/m.test(textOf(bytes)));
}

// The name of a file without its end.
export function stemOf(name) {
    return name.replace(/\.[^.]*$/, '') || 'mine';
}
