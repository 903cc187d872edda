// The proved board in a page or in node: the live calls of hosts/pacboard.h over the module that hosts/web/build makes.
//
// A pointer and a length are a BigInt, and all other numbers are plain. The module has no heap: boards, and what is handed to the calls, lie in
// its memory above `__heap_base`. Each board there is a live one, with its handle before it.

export const WIDTH = 288, HEIGHT = 224; // pixels
export const FRAME_MICROSECONDS = 16500, FRAME_SAMPLES = 1584, SAMPLE_RATE = 96000, SWITCHES = 0xc9;
const ROOM = 9602; // samples: those of 100,000 microseconds
const BLOCK = 67756, ADDRESSES = 65536;
const HANDLE = 24; // bytes: where the memory of a live board is, its size, and the seal
// What the calls are handed, in bytes: `closed` is a handle that isn't open, `bytes` are those of a block, of a state file, or of addresses.
const SIZES = {
    closed: HANDLE, roms: 25120, bytes: BLOCK, rgba: 4 * WIDTH * HEIGHT, samples: 2 * ROOM, ran: 40, registers: 48, places: ADDRESSES, watched: ADDRESSES,
};
const RGBA = 0; // the order of a pixel's bytes
const ALIGNED = 16; // where memory of a live board begins
const WHY = ['', 'time', 'place', 'stop', 'full', 'access']; // why `pac_live_until` ended, by its codes

// The inputs, each a bit of a mask.
export const INPUTS = Object.fromEntries([
    'P1_UP', 'P1_LEFT', 'P1_RIGHT', 'P1_DOWN', 'RACK_TEST', 'COIN1', 'COIN2', 'CREDIT',
    'P2_UP', 'P2_LEFT', 'P2_RIGHT', 'P2_DOWN', 'BOARD_TEST', 'START1', 'START2', 'COCKTAIL',
].map((name, bit) => [name, 1 << bit]));

const CODES = {
    1: 'a length is wrong',
    2: "the block isn't the state of a board",
    3: 'the microseconds in all would pass 2^50',
    4: 'the buffer has less room than the samples that the call could give',
    11: 'the state file is refused: V1', 12: 'the state file is refused: V2', 13: 'the state file is refused: V3',
    14: 'the state file is refused: V4', 15: 'the state file is refused: V5', 16: 'the state file is refused: V6',
};

const CLOSED = 5, CLOSED_TEXT = "the board is closed";

// A call is refused, and nothing is changed.
export class Refused extends Error {
    constructor(code) {
        super(code === CLOSED ? CLOSED_TEXT : CODES[code] ?? `code ${code}`);
        this.code = code;
    }
}

// A call of the module has ended in a trap, as where it was handed a place outside its memory. It may have left memory and stack as no call
// leaves them, so its board can't be used any more.
export class Trapped extends Error {
    constructor(cause) {
        super(`the module has trapped (${cause.message}): make a new board`, { cause });
    }
}

// A whole number from 0 up to another: the module would take its low bits alone, and what is none for 0.
function number(what, value, most) {
    if (!Number.isInteger(value) || value < 0 || value > most) {
        throw new RangeError(`${what}: ${value} isn't a whole number from 0 to ${most}`);
    }
    return value;
}

// Whether a module can run here: it has vectors.
export function canRun(module) {
    return WebAssembly.validate(module);
}

// The memory of a module above its stack and data: what all calls are handed, and the boards that are open.
class Memory {
    constructor(calls) {
        const { buffer } = calls.memory;
        if (calls.pac_size() !== BigInt(BLOCK)) throw new Error("the module's board has another size");
        Object.assign(this, { calls, end: buffer.byteLength, trap: null, free: [], at: {}, view: new DataView(buffer), all: new Uint8Array(buffer) });
        this.next = Number(calls.__heap_base.value);
        this.size = Number(calls.pac_live_size()); // of a live board
        for (const [name, size] of Object.entries(SIZES)) this.at[name] = BigInt(this.placed(size));
        this.bytes(this.at.closed, HANDLE).fill(0);
    }

    // Places so many bytes.
    placed(size) {
        const place = Math.ceil(this.next / ALIGNED) * ALIGNED;
        if (place + size > this.end) throw new Error("the module's memory is too small");
        this.next = place + size;
        return place;
    }

    // The place of a handle with memory for a board after it: one that was given back, or a new one.
    lend() {
        const place = this.free.pop() ?? this.placed(2 * ALIGNED + this.size), [at, size, seal] = [0, 8, 16].map((field) => place + field);
        this.view.setBigUint64(at, BigInt(place + 2 * ALIGNED), true);
        this.view.setBigUint64(size, BigInt(this.size), true);
        this.view.setBigUint64(seal, 0n, true);
        return BigInt(place);
    }

    // So many bytes of the memory, from a place on.
    bytes(place, size) {
        return this.all.subarray(Number(place), Number(place) + size);
    }

    // A buffer as a call takes it: where it is, and its length.
    part(name) {
        return [this.at[name], BigInt(SIZES[name])];
    }

    // Passes where no call has ended in a trap yet.
    intact() {
        if (this.trap !== null) throw new Trapped(this.trap);
    }

    // Makes a call: passes a code of 0, and throws what another one means.
    call(name, ...words) {
        this.intact();
        let code;
        try {
            code = this.calls[name](...words);
        } catch (error) {
            if (!(error instanceof WebAssembly.RuntimeError || error instanceof RangeError)) throw error;
            this.trap = error; // (a RangeError where the stack is full)
            this.intact();
        }
        if (code !== 0) throw new Refused(code);
    }

    // Puts bytes into a buffer, which are as many as it has, as a call takes them.
    filled(name, bytes) {
        if (bytes.length !== SIZES[name]) throw new Refused(1);
        this.bytes(this.at[name], SIZES[name]).set(bytes);
        return this.part(name);
    }

    // What a call has told of a run, and the samples.
    told() {
        const { view } = this, ran = Number(this.at.ran);
        return {
            ticks: view.getBigUint64(ran, true), pictures: view.getUint32(ran + 12, true), stop: view.getUint32(ran + 16, true),
            pc: view.getUint16(ran + 20, true), bytes: Array.from(this.bytes(ran + 22, 4)), vector: view.getUint8(ran + 26),
            samples: this.heard(),
        };
    }

    // The samples of a run.
    heard() {
        return new Int16Array(this.view.buffer, Number(this.at.samples), this.view.getUint32(Number(this.at.ran) + 8, true)).slice();
    }
}

const memories = new WeakMap(); // of the exports of each instance

// The memory of an instance, by its exports.
function memoryOf(calls) {
    if (!memories.has(calls)) memories.set(calls, new Memory(calls));
    return memories.get(calls);
}

// A board with its ROM set.
export class Board {
    #memory;
    #handle;
    #roms;

    // A board at power-on: from the module's bytes and a ROM block.
    static async powerOn(module, roms, switches = SWITCHES) {
        const { instance } = await WebAssembly.instantiate(module, {});
        return new Board(instance.exports, roms, switches);
    }

    // A board at power-on in an instance of the module, whose exports these are.
    constructor(calls, roms, switches = SWITCHES) {
        this.calls = calls;
        this.#memory = memoryOf(calls);
        this.#memory.intact();
        const handle = this.#memory.lend();
        try {
            this.#opened(handle, roms, switches);
        } catch (error) {
            this.#memory.free.push(Number(handle));
            throw error;
        }
    }

    // Another board at power-on, beside this one in the module's memory.
    beside(roms = this.#roms, switches = SWITCHES) {
        return new Board(this.calls, roms, switches);
    }

    // Gives the board's memory back to the module; each later use is refused.
    close() {
        this.#call('pac_live_close');
        this.#memory.free.push(Number(this.#handle));
        this.#handle = this.#memory.at.closed;
    }

    // Becomes a board at power-on, with another ROM block in its sockets.
    begin(roms, switches = SWITCHES) {
        if (this.#handle === this.#memory.at.closed) throw new Refused(CLOSED);
        this.#opened(this.#handle, roms, switches);
    }

    #opened(handle, roms, switches) {
        const some = number('switches', switches, 0xff);
        this.#memory.intact();
        this.#memory.call('pac_live_open', handle, ...this.#memory.filled('roms', roms), some);
        this.#handle = handle;
        this.#roms = Uint8Array.from(roms);
    }

    // Makes a call on the board.
    #call(name, ...words) {
        this.#memory.call(name, this.#handle, ...words);
    }

    // Takes a block and a ROM block.
    #put(block, roms) {
        const memory = this.#memory;
        memory.intact();
        this.#call('pac_live_put', ...memory.filled('roms', roms), memory.filled('bytes', block)[0]);
    }

    // Puts another ROM block into the sockets; the board stays as it is.
    set sockets(roms) {
        this.#put(this.block, roms);
        this.#roms = Uint8Array.from(roms);
    }

    // All of the board's state: a snapshot.
    get block() {
        return this.#given(BLOCK, 'pac_live_give', this.#memory.at.bytes);
    }

    // Goes back to a snapshot.
    set block(kept) {
        this.#put(kept, this.#roms);
    }

    // So many bytes that a call gives.
    #given(size, name, ...words) {
        this.#call(name, ...words);
        return this.#memory.bytes(this.#memory.at.bytes, size).slice();
    }

    // Does what the watchdog does.
    reset() {
        this.#call('pac_live_reset');
    }

    // Holds these inputs, and lets all others go.
    hold(inputs) {
        this.#call('pac_live_hold', number('inputs', inputs, 0xffff), 0xffff);
    }

    // Lets so many microseconds go by, 100,000 at most: what was done, and the samples.
    run(microseconds) {
        const { at } = this.#memory;
        this.#call('pac_live_exec', number('microseconds', microseconds, 0xffffffff), at.samples, BigInt(ROOM), at.ran);
        return this.#memory.told();
    }

    // Does exactly one step: what was done, and its samples.
    step() {
        const { at } = this.#memory;
        this.#call('pac_live_step', at.samples, BigInt(ROOM), at.ran);
        return this.#memory.told();
    }

    // Goes on until so many T-states are over, the processor is before an address of a set, a step has written to a watched address or read it,
    // the board stops, or 9,602 samples have come: what was done, with `why`, one of 'time', 'place', 'access', 'stop' and 'full'. Both sets have
    // 65,536 bytes, one for each address: other than 0 where it's of the set, and 1 where writes to it are watched, 2 where reads are, 3 where
    // both; without one there is none. Where there is time one step is done at least.
    until(ticks, places = null, watched = null) {
        const memory = this.#memory, { at, view } = memory, ran = Number(at.ran), some = number('ticks', ticks, 0xffffffff);
        memory.intact();
        const sets = Object.entries({ places, watched }).flatMap(([name, set]) => (set === null ? [at[name], 0n] : memory.filled(name, set)));
        this.#call('pac_live_until', some, ...sets, at.samples, BigInt(ROOM), at.ran);
        const [access, before, after, vector, ...bytes] = memory.bytes(ran + 28, 8);
        return {
            ticks: view.getBigUint64(ran, true), pictures: view.getUint32(ran + 12, true), why: WHY[view.getUint32(ran + 16, true)],
            stop: view.getUint32(ran + 20, true), pc: view.getUint16(ran + 24, true), address: view.getUint16(ran + 26, true), access, before, after,
            vector, bytes, samples: memory.heard(),
        };
    }

    // The registers by their names: numbers, but the clocks, which are a BigInt, and the four flip-flops.
    get registers() {
        const { view, at } = this.#memory, from = Number(at.registers), it = this.#memory.bytes(from, SIZES.registers);
        this.#call('pac_live_registers', at.registers);
        return {
            time: view.getBigUint64(from, true), steps: view.getBigUint64(from + 8, true),
            pc: it[16] | it[17] << 8, sp: it[18] | it[19] << 8, ix: it[20] | it[21] << 8, iy: it[22] | it[23] << 8,
            a: it[24], f: it[25], b: it[26], c: it[27], d: it[28], e: it[29], h: it[30], l: it[31],
            alternateA: it[32], alternateF: it[33], alternateB: it[34], alternateC: it[35],
            alternateD: it[36], alternateE: it[37], alternateH: it[38], alternateL: it[39],
            i: it[40], r: it[41], interruptMode: it[42], iff1: it[43] === 1, iff2: it[44] === 1, halted: it[45] === 1, afterEi: it[46] === 1,
        };
    }

    // The picture as it stands: red, green, blue and 255 for each pixel, row by row. The next picture of a board of this instance is written over it.
    draw() {
        const { at, view } = this.#memory;
        this.#call('pac_live_draw', RGBA, ...this.#memory.part('rgba'));
        return new Uint8ClampedArray(view.buffer, Number(at.rgba), SIZES.rgba);
    }

    // What the processor would read at so many addresses from one on, without reading it.
    peek(address, count) {
        const { bytes } = this.#memory.at;
        return this.#given(number('count', count, ADDRESSES), 'pac_live_peek', number('address', address, 0xffff), bytes, BigInt(count));
    }

    // The board's state file.
    save() {
        return this.#given(BLOCK, 'pac_live_save', this.#memory.at.bytes, BigInt(BLOCK));
    }

    // Becomes the board of a state file.
    load(text) {
        if (text.length > BLOCK) throw new Refused(13);
        const memory = this.#memory, { bytes } = memory.at;
        memory.intact();
        memory.bytes(bytes, text.length).set(text);
        this.#call('pac_live_load', bytes, BigInt(text.length));
    }
}
