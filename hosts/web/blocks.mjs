// A board by the calls of a block, for the tests of what goes by live calls.

import { FRAME_MICROSECONDS, HEIGHT, SWITCHES, WIDTH } from './board.js';

const AT = { // where a block has the registers, as hosts/pacboard.h has it: the place, and the bytes of each
    a: [30, 1], f: [31, 1], b: [32, 1], c: [33, 1], d: [34, 1], e: [35, 1], h: [36, 1], l: [37, 1], alternateA: [38, 1], alternateF: [39, 1],
    alternateB: [40, 1], alternateC: [41, 1], alternateD: [42, 1], alternateE: [43, 1], alternateH: [44, 1], alternateL: [45, 1], ix: [46, 2],
    iy: [48, 2], sp: [50, 2], pc: [52, 2], i: [54, 1], r: [55, 1], interruptMode: [57, 1],
};
const FLAGS = { iff1: 1, iff2: 2, halted: 4, afterEi: 8 }, FLAGS_AT = 56, TIME_AT = 58, STEPS_AT = 66, ASKED_AT = 74;

// A board by the calls of a block, in an instance of its own.
export class Block {
    constructor(module, roms) {
        this.calls = new WebAssembly.Instance(module, {}).exports;
        const sizes = { block: 67756, roms: roms.length, rgba: 4 * WIDTH * HEIGHT, samples: 4000, ran: 32, text: 67756 };
        let next = Number(this.calls.__heap_base.value) + 15 & ~15;
        for (const [name, size] of Object.entries(sizes)) {
            this[name] = new Uint8Array(this.calls.memory.buffer, next, size);
            next = next + size + 15 & ~15;
        }
        this.roms.set(roms);
        this.does('pac_init', SWITCHES);
    }

    // Makes a call on the block and the ROMs; a buffer is handed with its length.
    does(name, ...words) {
        const part = (bytes) => [BigInt(bytes.byteOffset), BigInt(bytes.length)], isBare = ['pac_hold', 'pac_reset'].includes(name);
        const all = words.flatMap((word) => (word instanceof Uint8Array ? part(word) : [word]));
        const code = this.calls[name](BigInt(this.block.byteOffset), ...(isBare ? [] : part(this.roms)), ...all);
        if (code !== 0) throw new Error(`${name}: ${code}`);
    }

    // Lets time go by: what was done, in bytes, and the samples.
    run(microseconds) {
        this.does('pac_exec', microseconds, BigInt(this.samples.byteOffset), 2000n, BigInt(this.ran.byteOffset));
        const count = new DataView(this.ran.buffer, this.ran.byteOffset).getUint32(8, true);
        return Buffer.concat([this.ran, this.samples.subarray(0, 2 * count)]);
    }

    // A number that so many bytes of the block are.
    number(at, size) {
        return this.block.subarray(at, at + size).reduceRight((value, byte) => 256n * value + BigInt(byte), 0n);
    }

    // Its registers by their names.
    get registers() {
        return Object.fromEntries(Object.entries(AT).map(([name, place]) => [name, Number(this.number(...place))]));
    }

    // A step, by the calls for a microsecond, as if the time until now were all that was asked; what was asked stays.
    step() {
        const view = new DataView(this.block.buffer, this.block.byteOffset), asked = view.getBigUint64(ASKED_AT, true);
        const steps = this.number(STEPS_AT, 8);
        view.setBigUint64(ASKED_AT, this.number(TIME_AT, 8) * 125n / 384n, true);
        while (this.number(STEPS_AT, 8) === steps) this.run(1);
        view.setBigUint64(ASKED_AT, asked, true);
    }
}

// Whether the registers are those of a block.
export function areOf(registers, block) {
    const flags = block.block[FLAGS_AT];
    return Object.entries(AT).every(([name, [at, size]]) => BigInt(registers[name]) === block.number(at, size))
        && Object.entries(FLAGS).every(([name, bit]) => registers[name] === ((flags & bit) !== 0))
        && registers.time === block.number(TIME_AT, 8) && registers.steps === block.number(STEPS_AT, 8)
        && Object.keys(registers).length === Object.keys(AT).length + Object.keys(FLAGS).length + 2;
}

// Each moment of some frames of a run, a step's beginning, by the calls of a block: frames that are let go by at once, then those in which a
// microsecond goes by at a time, in which at most one step begins.
export function traceOf(module, roms, masks, first, frames) {
    const block = new Block(module, roms), trace = [];
    for (let frame = 0; frame < first; frame++) {
        block.does('pac_hold', masks[frame] ?? 0, 0xffff);
        block.run(FRAME_MICROSECONDS);
    }
    for (let frame = first; frame < first + frames; frame++) {
        block.does('pac_hold', masks[frame] ?? 0, 0xffff);
        for (let microsecond = 0; microsecond < FRAME_MICROSECONDS; microsecond++) {
            const steps = Number(block.number(STEPS_AT, 8));
            if (trace.at(-1)?.steps !== steps) trace.push({ frame, steps, ...block.registers });
            block.run(1);
        }
    }
    return trace;
}
