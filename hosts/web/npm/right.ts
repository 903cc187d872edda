// A program whose types are right: tools/check/packages has the TypeScript compiler look at it.
import { assembler, board, Board, faultText, FRAME_MICROSECONDS, INPUTS, Input, Ran, Refused, Registers, Trapped, Until } from 'pacboard';

export async function played(roms: Uint8Array, names: readonly Input[]): Promise<Uint8ClampedArray> {
    const it: Board = await board(roms, 0xc9);
    it.hold(names.reduce((mask, name) => mask | INPUTS[name], 0));
    const ran: Ran = it.run(FRAME_MICROSECONDS);
    const heard: Int16Array = ran.samples;
    const kept: Uint8Array = it.block;
    it.block = kept;
    it.load(it.save());
    if (ran.ticks < BigInt(50_000) || heard.length === 0 || it.peek(0x4c00, 16).length !== 16) throw new Refused(1);
    return it.draw();
}

export function looked(it: Board, address: number): number {
    const other: Board = it.beside(), places = new Uint8Array(65536);
    places[address] = 1;
    const { why, ticks }: Until = other.until(50_688, places), registers: Registers = other.registers;
    other.step();
    other.close();
    return why === 'place' && registers.time === ticks && registers.halted === false ? registers.pc : -1;
}

export async function told(source: Uint8Array): Promise<string> {
    const made = (await assembler()).assemble(source);
    return made.code === 6 ? faultText(made) : made.rom ? `${made.rom.length}` : '';
}

export const isOver = (error: unknown): boolean => error instanceof Trapped;
