// What a listing says: each line's address and bytes, the symbols, and by the table of instructions the T-states.

import { DIRECTIVES, MNEMONICS, TICKS } from './tables.js';

const ROW = /^(\d{5}|     ) ([0-9A-F]{4}) ([0-9A-F]{2,8}) *(?: |$)/;
const MNEMONIC = new Set(MNEMONICS), OPERATION = new Set([...MNEMONICS, ...DIRECTIVES]);

const RAM = 0x4000, TOP = 0xffff; // a number by EQU below is no place

// The label of a line of a source; nothing where it has none.
function labelOf(line) {
    const word = /^[ \t]*([A-Za-z_]\w*)/.exec(line)?.[1];
    return word !== undefined && !OPERATION.has(word.toUpperCase()) ? word : null;
}

// The operation of a line of a source, in capitals; nothing where it has none.
export function operationOf(line) {
    const found = /^[ \t]*([A-Za-z_]\w*)(?:[ \t]*:)?[ \t]*([A-Za-z_]\w*)?/.exec(line);
    return found?.slice(1).map((word) => word?.toUpperCase()).find((word) => OPERATION.has(word)) ?? null;
}

// The T-states of the instruction with which bytes begin, as the table has them: two where it may jump or repeat; '' where it is none.
export function ticksOf(code) {
    const prefix = { 0xcb: 'Cb', 0xed: 'Ed', 0xdd: 'Dd', 0xfd: 'Fd' }[code[0]];
    if ((prefix === 'Dd' || prefix === 'Fd') && code[1] === 0xcb) return TICKS[`${prefix}Cb`][code[3]] ?? '';
    return TICKS[prefix ?? 'Plain'][code[prefix ? 1 : 0]] ?? '';
}

// A listing, read.
export class Listing {
    constructor(text, source) {
        this.lines = []; // of each line of the source its address, its bytes and its T-states; nothing where it has no bytes
        this.lineAt = new Map(); // from each address with a line's first byte, or one in it, to the line's number
        this.symbols = new Map();
        const end = text.lastIndexOf('SYMBOLS\n');
        let number = 0;
        for (const row of text.slice(0, end).split('\n')) this.take(row, Number(row.slice(0, 5).trim() ? number = Number(row.slice(0, 5)) : number));
        source.forEach((line, at) => {
            const found = this.lines[at + 1];
            if (found && MNEMONIC.has(operationOf(line))) found.ticks = ticksOf(found.bytes);
        });
        for (const row of text.slice(end + 8).split('\n').filter(Boolean)) {
            const [name, value] = row.split(' ');
            this.symbols.set(name, Number(value));
        }
        this.names = new Map(); // from each address to the names that have it
        const numbers = new Set(source.filter((line) => operationOf(line) === 'EQU').map((line) => labelOf(line)));
        for (const [name, value] of this.symbols) {
            const isPlace = numbers.has(name) ? value >= RAM && value <= TOP : true;
            if (isPlace) this.names.set(value, [...this.names.get(value) ?? [], name]);
        }
    }

    // Takes a row of a line.
    take(row, number) {
        const found = ROW.exec(row.slice(0, 20));
        if (!found) return;
        const address = parseInt(found[2], 16), bytes = found[3].match(/../g).map((byte) => parseInt(byte, 16));
        if (found[1].trim()) this.lines[number] = { address, bytes, ticks: '' };
        else this.lines[number]?.bytes.push(...bytes);
        bytes.forEach((_, at) => this.lineAt.set(address + at, number));
    }

    // Whether each name that another listing has, too, is the same place there.
    isInPlace(other) {
        const places = new Map([...other.names].flatMap(([address, names]) => names.map((name) => [name, address])));
        return [...this.names].every(([address, names]) => names.every((name) => (places.get(name) ?? address) === address));
    }

    // How many bytes the source has placed.
    get size() {
        return this.lineAt.size;
    }

    // The name of an address: a symbol, or one and what lies between; nothing where none is near.
    nameOf(address, most = 0) {
        for (let less = 0; less <= most && address - less >= 0; less++) {
            const names = this.names.get(address - less);
            if (names) return less === 0 ? names[0] : `${names[0]}+${less}`;
        }
        return null;
    }
}
