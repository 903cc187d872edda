// A heap in a module's own memory, for the three calls that hosts/retarget.py gives it in the place of C's malloc, realloc and free.
//
// Blocks are of sizes in steps, four to each power of two, and each has 16 bytes before it that tell its size's number. A block that is given
// back waits in the list of its size. The contracts that the module takes for granted are those of the kit's heap.rt: a block lies at a
// multiple of 16, touches no other, and keeps its first bytes where it is resized; and no call touches anything else.

const HEAD = 16; // bytes before a block
const STEPS = Array.from({ length: 4 * 26 }, (_, at) => HEAD * Math.ceil((4 + at % 4) * 2 ** (at >> 2) / 4));
const SIZES = [...new Set(STEPS)]; // 16 bytes, 32, 48, 64, 80, and so on up to 1.75 * 2^29
const FEW = 64; // units of 16 bytes whose sizes are looked up
const SMALL = Uint8Array.from({ length: FEW + 1 }, (_, units) => SIZES.findIndex((size) => size >= HEAD * units));
const NOWHERE = 16n; // what a refused call answers as a place: no block is there

export class Heap {
    constructor() {
        this.bytes = this.words = this.longs = null; // the module's memory
        this.end = this.next = 0;
        this.out = 0; // blocks that aren't given back
        this.refused = 0; // the number of a call that is to be refused, from 1; 0 where none is
        this.asked = 0; // calls for memory so far
    }

    // What a module imports.
    get imports() {
        return {
            host: {
                host_alloc: (answer, size, align) => this.tell(answer, this.allocated(Number(size))),
                host_realloc: (answer, at, kept, size, align) => this.tell(answer, this.resized(Number(at), Number(kept), Number(size))),
                host_dealloc: (at) => this.free(Number(at)),
            },
        };
    }

    // Begins anew, between two places of a memory: no block is out.
    begin(memory, base, end) {
        if (this.bytes?.buffer !== memory.buffer) {
            this.bytes = new Uint8Array(memory.buffer);
            this.words = new Uint32Array(memory.buffer);
            this.longs = new BigUint64Array(memory.buffer); // (what tells an answer lies at a multiple of 8)
        }
        this.next = Math.ceil(base / HEAD) * HEAD;
        this.end = end;
        this.lists = new Uint32Array(SIZES.length); // the first block that waits of each size, 0 where none does
        this.out = this.asked = 0;
    }

    // The number of the least size that has so many bytes.
    sizeOf(bytes) {
        const units = Math.ceil(bytes / HEAD);
        if (units <= FEW) return SMALL[units];
        let at = SMALL[FEW];
        while (SIZES[at] < bytes) at++;
        return at;
    }

    // The place of a block of so many bytes; 0 where there is none.
    allocated(bytes) {
        if (++this.asked === this.refused || bytes > SIZES[SIZES.length - 1]) return 0;
        const size = this.sizeOf(bytes);
        let at = this.lists[size];
        if (at !== 0) {
            this.lists[size] = this.words[at >> 2];
        } else {
            if (this.next + HEAD + SIZES[size] > this.end) return 0;
            at = this.next + HEAD;
            this.next = at + SIZES[size];
            this.words[(at - HEAD) >> 2] = size;
        }
        this.out++;
        return at;
    }

    // The place of a block with the first bytes of another, which is given back; 0 where there is none, and the other one stays.
    resized(at, kept, bytes) {
        const size = this.words[(at - HEAD) >> 2];
        if (bytes <= SIZES[SIZES.length - 1] && this.sizeOf(bytes) === size) return ++this.asked === this.refused ? 0 : at;
        const other = this.allocated(bytes);
        if (other !== 0) {
            this.bytes.copyWithin(other, at, at + Math.min(kept, bytes));
            this.free(at);
        }
        return other;
    }

    // Takes a block back.
    free(at) {
        const size = this.words[(at - HEAD) >> 2];
        this.words[at >> 2] = this.lists[size];
        this.lists[size] = at;
        this.out--;
    }

    // Writes the answer of a call: whether there is memory, and where.
    tell(answer, at) {
        const place = Number(answer) / 8;
        this.longs[place] = at === 0 ? 0n : 1n;
        this.longs[place + 1] = at === 0 ? NOWHERE : BigInt(at);
    }
}
