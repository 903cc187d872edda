// A program each of whose statements is wrong by its types.
import { Assembler, Board, INPUTS } from 'pacboard';

export async function wrong(it: Board, assembler: Assembler): Promise<void> {
    it.hold('P1_UP');
    it.run();
    it.sockets = [1, 2, 3];
    it.hold(INPUTS.P3_UP);
    it.until(5n);
    it.registers.pc = 5;
    it.draw().length = 5;
    const text: string = it.save();
    assembler.assemble(text);
    await Board.powerOn(5, new Uint8Array());
}
