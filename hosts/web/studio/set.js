// A ROM set as files: by a manifest, or by the chips that dumps are named after. Refused as docs/FORMATS.md says.

import { digestOf, Fault, textOf } from './bytes.js';
import { sentences } from './causes.js';
import { tablesOf as read } from './manifest.js';
import { PARTS } from './tables.js';

const CHIPS = {
    '6e': 'program1', '6f': 'program2', '6h': 'program3', '6j': 'program4', '5e': 'tiles', '5f': 'sprites',
    '7f': 'colours', '4a': 'lookup', '1m': 'wave', '3m': 'timing',
};
const SIZES = Object.fromEntries(PARTS);

// A fault of a part, with what is known of it.
function refusal(code, part, known = {}) {
    const all = { toml: '', part, table: null, file: '', size: SIZES[part] ?? null, length: null, ...known };
    return new Fault(code, sentences(code, (name) => all[name]).join('; '), part);
}

// The tables of a manifest by their names; nothing for a key before the first table that has a table's name.
function tablesOf(text) {
    const { root, tables } = read(text);
    for (const key of root.keys()) if (key in SIZES || key === 'program') tables.set(key, null);
    return tables;
}

// The table of each part that a manifest names; whether it has the program is up to it.
function partsOf(tables, hasSource) {
    const found = new Map(), program = tables.get('program');
    if (program !== undefined && (!Array.isArray(program) || program.length !== 4)) throw refusal('M1', 'program');
    program?.forEach((table, at) => found.set(`program${at + 1}`, table));
    for (const [name] of PARTS.slice(4)) if (tables.has(name)) found.set(name, tables.get(name));
    for (const [name, table] of found) {
        if (!(table instanceof Map) || table.get('file') === null || table.has('sha1') && !/^[0-9A-Fa-f]{40}$/.test(table.get('sha1') ?? ''))
            throw refusal('M1', name);
    }
    for (const [name] of PARTS) {
        const isNeeded = name.startsWith('program') ? program !== undefined || name === 'program1' && !hasSource : name !== 'timing'
            || found.has(name);
        if (isNeeded && !found.get(name)?.has('file')) throw refusal('M2', name, { table: found.has(name) });
    }
    if (program !== undefined && hasSource) throw refusal('M6', '');
    return found;
}

// The names of the files of a manifest, in the order in which they are read; none where it is no manifest.
export function namedFiles(text) {
    let tables;
    try {
        tables = tablesOf(text);
    } catch {
        return [];
    }
    const all = [...(Array.isArray(tables.get('program')) ? tables.get('program') : []), ...PARTS.slice(4).map(([name]) => tables.get(name))];
    return all.filter((table) => table instanceof Map).map((table) => table.get('file')).filter((name) => typeof name === 'string');
}

// The file of a name among files, whose names may have folders before them.
function fileOf(files, name) {
    return files.find((file) => file.name === name) ?? files.find((file) => file.name.endsWith(`/${name}`) || name.endsWith(`/${file.name}`));
}

// The bytes of a part, whose size and digest are looked at.
async function checked(name, table, files) {
    const file = fileOf(files, table.get('file'));
    if (!file) throw refusal('M5', name, { file: table.get('file') });
    if (file.bytes.length !== SIZES[name]) throw refusal('M3', name, { file: file.name, length: file.bytes.length });
    const digest = table.has('sha1') ? await digestOf(file.bytes) : null;
    if (digest !== null && digest !== table.get('sha1').toLowerCase()) throw refusal('M4', name, { file: file.name });
    return file.bytes;
}

// The part that a dump is named after, as pacman.6e.
function chipOf(name) {
    return CHIPS[/\.([^./]+)$/.exec(name)?.[1].toLowerCase()];
}

// The tables of dumps by their chips' names.
function tablesOfDumps(files) {
    const tables = new Map();
    for (const { name } of files) {
        const part = chipOf(name);
        if (part && tables.has(part)) throw new Fault('two dumps', `${tables.get(part).get('file')} and ${name} are both dumps of ${part}`);
        if (part) tables.set(part, new Map([['file', name]]));
    }
    const program = [1, 2, 3, 4].map((quarter) => tables.get(`program${quarter}`));
    if (program.every(Boolean)) tables.set('program', program);
    else if (program.some(Boolean)) throw new Fault('M2', `there is no ${[1, 2, 3, 4].map((quarter) => `program${quarter}`)[program.indexOf(undefined)]}`);
    return tables;
}

// Whether files have a set among them.
export function hasSet(files) {
    return files.some(({ name }) => name.toLowerCase().endsWith('.toml')) || files.some(({ name }) => chipOf(name));
}

// The parts of a set among files, one after another in the order of a ROM block, and whether its program is one of them. `hasSource` says that
// another program stands beside it.
export async function setOf(files, hasSource) {
    const manifest = files.find(({ name }) => name.toLowerCase().endsWith('.toml'));
    const tables = partsOf(manifest ? tablesOf(textOf(manifest.bytes)) : tablesOfDumps(files), hasSource);
    const parts = [];
    for (const [name, table] of [...tables].sort(([one], [other]) => orderOf(one) - orderOf(other))) parts.push([name,
        await checked(name, table, files)]);
    const bytes = parts.filter(([name]) => name !== 'timing').flatMap(([, part]) => Array.from(part));
    return { bytes: Uint8Array.from(bytes), hasProgram: tables.has('program1') };
}

function orderOf(name) {
    return PARTS.findIndex(([part]) => part === name);
}
