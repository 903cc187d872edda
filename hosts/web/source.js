// The proved assembler in a page or in node: the calls of hosts/pacsource.h over the module that hosts/web/build makes.
//
// What the module is handed stands in its memory above `__heap_base`, one buffer after another, and above them is its heap, which
// begins anew with each call: the module gives back all that it takes before a call ends, which is looked at.

import { Heap } from './heap.js';

export const ROM_SIZE = 16384; // bytes
const TOLD = 32; // bytes: of what a call tells
const ROW = 21; // bytes of a listing's row besides the line's text
const ROWS = ROW * ROM_SIZE / 4; // bytes of all further rows, at most
const NUMBER = 13; // bytes of a symbol besides its name, at most

export const CODES = {
    1: "the ROM hasn't 16,384 bytes",
    4: 'the listing has more bytes than there is room for',
    5: 'memory ran out',
    6: 'the source has a fault',
};

// A call of the module has ended in a trap, or has kept memory: the assembler can't be used any more.
export class Broken extends Error {
    constructor(why) {
        super(`the assembler's module has failed (${why.message ?? why}): load it again`);
    }
}

export class Assembler {
    // The assembler of a module's bytes.
    static async load(module) {
        const heap = new Heap();
        const { instance } = await WebAssembly.instantiate(module, heap.imports);
        return new Assembler(instance.exports, heap);
    }

    constructor(calls, heap) {
        this.calls = calls;
        this.heap = heap;
        this.isBroken = false;
    }

    // Places buffers of these sizes, each at a multiple of 16: where each is; nothing where the memory hasn't room for them.
    place(...sizes) {
        let next = Math.ceil(Number(this.calls.__heap_base.value) / 16) * 16;
        const places = sizes.map((size) => {
            const at = next;
            next += Math.ceil(size / 16) * 16;
            return at;
        });
        const memory = this.calls.memory;
        if (next > memory.buffer.byteLength) return null;
        this.heap.begin(memory, next, memory.buffer.byteLength);
        return places;
    }

    // Makes a call, after which no block may be out.
    call(name, ...words) {
        if (this.isBroken) throw new Broken('it has failed before');
        try {
            const answer = this.calls[name](...words);
            if (this.heap.out !== 0) throw new Error(`${this.heap.out} blocks are kept`);
            return answer;
        } catch (error) {
            this.isBroken = true;
            throw new Broken(error);
        }
    }

    // Assembles a source, its bytes: the code of the answer, 0 for 'done', with `rom` and `listing` where that is so, and with `line`, `fault` (6
    // for A6) and `token` (2 for L2, where the fault is A1) where the source has one. Where the module's memory is too small it's 5.
    assemble(source) {
        let lines = 1;
        for (const byte of source) lines += byte === 10;
        const room = 2 * source.length + (ROW + NUMBER) * lines + ROWS + 64;
        const places = this.place(TOLD, ROM_SIZE, source.length + 1, room);
        if (places === null) return { code: 5, line: 0, fault: 0, token: 0 };
        const [told, rom, text, listing] = places, memory = this.calls.memory.buffer;
        new Uint8Array(memory, text, source.length).set(source);
        const code = this.call('pac_assemble', ...[text, source.length, rom, ROM_SIZE, listing, room, told].map(BigInt));
        const view = new DataView(memory, told, TOLD), size = Number(view.getBigUint64(0, true));
        const made = { code, line: view.getUint32(8, true), fault: view.getUint16(12, true), token: view.getUint16(14, true) };
        if (code !== 0) return made;
        return { ...made, rom: new Uint8Array(memory, rom, ROM_SIZE).slice(), listing: new Uint8Array(memory, listing, size).slice() };
    }

    // The text of the instruction that some bytes begin with, the first of them at an address, and how many of them it has.
    disassemble(bytes, address) {
        const first = bytes.slice(0, 4); // (an instruction has four at most)
        const [told, code] = this.place(TOLD, 16);
        new Uint8Array(this.calls.memory.buffer, code, first.length).set(first);
        const size = this.call('pac_disassemble', BigInt(code), BigInt(first.length), address & 0xffff, BigInt(told));
        const text = new Uint8Array(this.calls.memory.buffer, told, 17);
        return { size, text: String.fromCharCode(...text.subarray(0, text.indexOf(0))) };
    }
}

// How `pacboard asm` tells a fault: `A1 L2 line 5`.
export function faultText({ line, fault, token }) {
    return `A${fault}${token === 0 ? '' : ` L${token}`} line ${line}`;
}
