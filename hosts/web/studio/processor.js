// The pane of the processor: registers, flags, what comes next, and what comes after it by the disassembler and the source.

import { hex } from './bytes.js';
import { made } from './parts.js';
import { PLACES } from './tables.js';
import { ticksOf } from './listing.js';

const PAIRS = [
    ['AF', 'a', 'f'], ['BC', 'b', 'c'], ['DE', 'd', 'e'], ['HL', 'h', 'l'], ['IX', 'ix'], ['IY', 'iy'], ['SP', 'sp'], ['PC', 'pc'],
    ["AF'", 'alternateA', 'alternateF'], ["BC'", 'alternateB', 'alternateC'], ["DE'", 'alternateD', 'alternateE'],
    ["HL'", 'alternateH', 'alternateL'],
];
const FLAGS = [[7, 'S', 'sign'], [6, 'Z', 'zero'], [4, 'H', 'half carry'], [2, 'P/V', 'parity or overflow'], [1, 'N', 'subtract'], [0, 'C', 'carry']];
const ROWS = 24; // instructions

const SINGLE = [...'ABCDEFHL'];
export const NAMES = [...PAIRS.map(([name]) => name), ...SINGLE, 'I', 'R', 'IM', 'IFF'];

// The registers of a board by the names that programs have for them: pairs, and single ones.
export function registersOf({ registers: it }) {
    const pairs = PAIRS.map(([name, high, low]) => [name, low ? 256 * it[high] + it[low] : it[high]]);
    const single = Object.fromEntries(SINGLE.map((name) => [name, it[name.toLowerCase()]]));
    return { ...Object.fromEntries(pairs), ...single, I: it.i, R: it.r, IM: it.interruptMode, IFF: it.iff1 ? 1 : 0, isHalted: it.halted };
}

// A list of registers, those marked that have changed.
function registerList(values, before) {
    return made('dl', { className: 'registers' }, ...values.map(([name, text]) =>
        made('div', { className: before && before[name] !== undefined && before[name] !== text ? 'changed' : '' }, made('dt', {}, name),
            made('dd', {}, text))));
}

export class ProcessorPane {
    constructor(root, studio) {
        Object.assign(this, { root, studio, before: null, shown: null });
    }

    show(block) {
        const registers = registersOf(this.studio.session.run.board), { PC: pc, IFF: iff, IM } = registers;
        const values = [
            ...PAIRS.map(([name]) => [name, hex(registers[name])]), ['I', hex(registers.I, 2)], ['R', hex(registers.R, 2)], ['IM', String(IM)],
                ['IFF', String(iff)],
            ['vector', hex(block[PLACES.AT_VECTOR], 2)], ['blanks', String(block[PLACES.AT_WATCHDOG])],
        ];
        const texts = Object.fromEntries(values), place = this.studio.moment;
        if (this.shown && this.shown.place !== place) this.before = this.shown.texts;
        this.shown = { place, texts };
        const { F: f } = registers;
        this.root.replaceChildren(
            registerList(values, this.before),
            made('div', { className: 'flags' }, ...FLAGS.map(([bit, name, title]) => made('span', { className: f >> bit & 1 ? 'set' : '', title },
                name)),
                ...['interrupts', 'sound', '', 'flip'].map((name, bit) => (name ? made('span',
                    { className: block[PLACES.AT_LATCH] >> bit & 1 ? 'set' : '', title: `what 500${bit}H keeps` }, name) : null)),
                made('span', { className: block[PLACES.AT_REQUEST] ? 'set' : '', title: "the blank's request" }, 'request'),
                made('span', { className: registers.isHalted ? 'set' : '' }, 'halted')),
            made('h2', {}, 'What comes next'),
            made('div', { className: 'rows' }, ...this.instructions(block, pc, registers.isHalted)),
        );
    }

    // Some instructions before PC, as the listing has them, and those from there on.
    instructions(block, pc, isHalted) {
        const { listing, assembler } = this.studio, rows = [];
        const from = this.startBefore(pc);
        for (let address = from, count = 0; count < ROWS && address <= 0xffff; count++) {
            const bytes = this.studio.bytesAt(block, address, 4);
            const name = listing?.names.get(address)?.[0];
            const { text, size } = assembler.disassembled(bytes, address);
            if (name) rows.push(made('div', { className: 'named' }, `${name}:`));
            const line = listing?.lineAt.get(address), isData = line && !listing.lines[line]?.ticks && listing.lines[line]?.address <= address;
            rows.push(made('div', { className: address === pc ? 'next' : isData ? 'dim' : '' },
                made('span', { className: 'dim' }, hex(address)), made('span', { className: 'dim' },
                    bytes.slice(0, size).map((byte) => hex(byte, 2)).join('')),
                made('span', {}, address === pc && isHalted ? `${this.named(text)}   ; waits for the interrupt` : this.named(text)),
                made('span', { className: 'dim' }, ticksOf(bytes.slice(0, 4)), '  ',
                    ...(line ? [made('button', { type: 'button', title: 'To this line of the source',
                        onclick: () => this.studio.editor.visit(line) }, `line ${line}`)] : []))));
            address += size;
        }
        return rows;
    }

    // Where to begin, so that a few lines of the source before PC are seen.
    startBefore(pc) {
        const { listing } = this.studio, line = listing?.lineAt.get(pc);
        if (!line) return pc;
        let start = pc;
        for (let at = line - 1, seen = 0; at > 0 && seen < 3; at--) {
            const row = listing.lines[at];
            if (!row || !row.ticks) continue;
            if (row.address + row.bytes.length !== start) break;
            start = row.address;
            seen++;
        }
        return start;
    }

    // An instruction's text with names for the addresses in it.
    named(text) {
        const { listing } = this.studio;
        return text.replace(/\b(0?[0-9A-F]{4})H\b/g, (whole, digits) => {
            const address = parseInt(digits, 16), name = listing?.nameOf(address, address >= 0x4000 ? 3 : 0);
            return name ?? whole;
        });
    }
}
