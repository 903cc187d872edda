/** Pixels of a picture: 288 by 224. */
export const WIDTH: 288;
export const HEIGHT: 224;
export const FRAME_MICROSECONDS: 16500;
export const FRAME_SAMPLES: 1584;
/** Samples a second: 96,000. */
export const SAMPLE_RATE: 96000;
/** The byte of the DIP switches where none is given: C9H. */
export const SWITCHES: number;

export type Input =
    | 'P1_UP' | 'P1_LEFT' | 'P1_RIGHT' | 'P1_DOWN' | 'RACK_TEST' | 'COIN1' | 'COIN2' | 'CREDIT'
    | 'P2_UP' | 'P2_LEFT' | 'P2_RIGHT' | 'P2_DOWN' | 'BOARD_TEST' | 'START1' | 'START2' | 'COCKTAIL';
/** The mask of each input. */
export const INPUTS: Readonly<Record<Input, number>>;

/** A call is refused, and nothing is changed. */
export class Refused extends Error {
    readonly code: number;
    constructor(code: number);
}

/** A call of the module has ended in a trap: its board can't be used any more, nor those beside it. */
export class Trapped extends Error {
    constructor(cause: Error);
}

/** What a run did. */
export interface Ran {
    /** T-states that went by. */
    readonly ticks: bigint;
    /** Vertical blanks that came. */
    readonly pictures: number;
    /** Why the board stopped: 0 where it didn't, 1 at an undocumented opcode, 2 at a vector that is no RST. */
    readonly stop: number;
    /** Where it stopped, the four bytes from there, and the interrupt vector. */
    readonly pc: number;
    readonly bytes: readonly number[];
    readonly vector: number;
    readonly samples: Int16Array;
}

/** What was done until a time, an address or an access: 'full' where no more samples had room, and then the next call goes on. */
export interface Until extends Ran {
    readonly why: 'time' | 'place' | 'access' | 'stop' | 'full';
    /** The watched address that the last step wrote to (1) or read (2), and its byte before and after; all 0 where it did neither. */
    readonly address: number;
    readonly access: number;
    readonly before: number;
    readonly after: number;
}

/** The registers by their names, T-states and steps since power-on among them. */
export interface Registers {
    readonly time: bigint;
    readonly steps: bigint;
    readonly pc: number;
    readonly sp: number;
    readonly ix: number;
    readonly iy: number;
    readonly a: number;
    readonly f: number;
    readonly b: number;
    readonly c: number;
    readonly d: number;
    readonly e: number;
    readonly h: number;
    readonly l: number;
    readonly alternateA: number;
    readonly alternateF: number;
    readonly alternateB: number;
    readonly alternateC: number;
    readonly alternateD: number;
    readonly alternateE: number;
    readonly alternateH: number;
    readonly alternateL: number;
    readonly i: number;
    readonly r: number;
    /** 0 to 2. */
    readonly interruptMode: number;
    readonly iff1: boolean;
    readonly iff2: boolean;
    readonly halted: boolean;
    /** Whether the last step was EI, after which no interrupt is accepted. */
    readonly afterEi: boolean;
}

/**
 * A board with its ROM set. Each number is looked at before it is handed on: one that isn't whole or doesn't fit is a RangeError. Boards beside
 * one another lie in the memory of one module, which has room for nine.
 */
export class Board {
    /** A board at power-on, of the bytes of pac_host.wasm and of a ROM block of 25,120 bytes. */
    static powerOn(module: BufferSource, roms: Uint8Array, switches?: number): Promise<Board>;
    /** Another board at power-on beside this one, with its ROM block where none is given. */
    beside(roms?: Uint8Array, switches?: number): Board;
    /** Gives the board's memory back; each later use is refused with code 5. */
    close(): void;
    /** Becomes a board at power-on, with another ROM block. */
    begin(roms: Uint8Array, switches?: number): void;
    /** Puts another ROM block into the sockets; the board stays as it is. */
    set sockets(roms: Uint8Array);
    /** All of the board's state, 67,756 bytes: a snapshot, by which any board also goes back. */
    get block(): Uint8Array;
    set block(kept: Uint8Array);
    /** Does what the watchdog does. */
    reset(): void;
    /** Holds these inputs, and lets all others go. */
    hold(inputs: number): void;
    /** Lets so many microseconds go by, 100,000 at most. */
    run(microseconds: number): Ran;
    /** Does exactly one step. What was asked in all stays, so `run` goes on from there to the time that it would have gone to. */
    step(): Ran;
    /**
     * Goes on until so many T-states are over, the processor is before an address of a set, a step has used a watched address, or the board stops,
     * with one step at least where there is time. Both sets have a byte for each of the 65,536 addresses; where writes are watched it's 1, where
     * reads are 2, and 3 where both. What was asked in all stays, as with `step`.
     */
    until(ticks: number, places?: Uint8Array | null, watched?: Uint8Array | null): Until;
    /** The registers by their names. */
    get registers(): Registers;
    /** The picture as it stands: red, green, blue and 255 for each pixel. The next picture of a board of this module is written over it. */
    draw(): Uint8ClampedArray;
    /** What the processor would read at so many addresses from one on, 65,536 at most. */
    peek(address: number, count: number): Uint8Array;
    /** The board's state file. */
    save(): Uint8Array;
    /** Becomes the board of a state file. */
    load(text: Uint8Array): void;
}

/** Whether the module of these bytes can run here: it has vectors. */
export function canRun(module: BufferSource): boolean;

/** The bytes of a program: 16,384. */
export const ROM_SIZE: 16384;
/** What the codes of an assembly mean. */
export const CODES: Readonly<Record<number, string>>;

/** What the assembler made of a source: code 0 with `rom` and `listing`, and 6 with the line and the number of a fault. */
export interface Assembled {
    readonly code: number;
    readonly line: number;
    readonly fault: number;
    readonly token: number;
    readonly rom?: Uint8Array;
    readonly listing?: Uint8Array;
}

/** The assembler's module has failed: it has to be loaded again. */
export class Broken extends Error {
    constructor(why: Error | string);
}

export class Assembler {
    /** The assembler of the bytes of pac_source.wasm. */
    static load(module: BufferSource): Promise<Assembler>;
    /** Assembles a source, its bytes. */
    assemble(source: Uint8Array): Assembled;
    /** The text of the instruction that some bytes begin with, the first of them at an address, and how many of them it has. */
    disassemble(bytes: Uint8Array, address: number): { readonly size: number; readonly text: string };
}

/** How `pacboard asm` tells a fault: `A1 L2 line 5`. */
export function faultText(made: Assembled): string;

/** A board at power-on, of the package's own module. */
export function board(roms: Uint8Array, switches?: number): Promise<Board>;
/** The assembler, of the package's own module. */
export function assembler(): Promise<Assembler>;
