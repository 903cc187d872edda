// Conditions of breakpoints: registers, bytes of the memory and numbers, compared, as in `A = 3 and (LIVES) <> 0`. They are looked at where the
// processor is before the breakpoint's address, and nowhere else.

import { Fault } from './bytes.js';
import { NAMES, registersOf } from './processor.js';
import { expressionOf, valueOf } from './reader.js';

const COMPARED = /^(.*?)(<>|<=|>=|=|<|>)(.*)$/s;
const HOLDS = {
    '=': (one, other) => one === other, '<>': (one, other) => one !== other, '<': (one, other) => one < other, '>': (one, other) => one > other,
    '<=': (one, other) => one <= other, '>=': (one, other) => one >= other,
};

// An operand: what gives its value, by a board and its registers. Of the memory it is the byte that the processor would read.
function operandOf(text, symbols) {
    const name = text.toUpperCase(), inner = /^\((.*)\)$/s.exec(text)?.[1];
    if (NAMES.includes(name)) return (board, registers) => registers[name];
    const tree = expressionOf(inner ?? text), value = tree && valueOf(tree, symbols, null);
    if (value === null || value < 0 || value > 0xffff) {
        throw new Fault('', `${text || 'nothing'} is no register, no number and no name of the source`);
    }
    return inner === undefined ? () => value : (board) => board.peek(value, 1)[0];
}

// A comparison, by a board and its registers.
function comparisonOf(text, symbols) {
    const [, one, sign, other] = COMPARED.exec(text) ?? [];
    if (sign === undefined) throw new Fault('', `${text.trim() || 'nothing'} compares nothing: =, <>, <, >, <= and >= do`);
    const [left, right] = [one, other].map((operand) => operandOf(operand.trim(), symbols));
    return (board, registers) => HOLDS[sign](left(board, registers), right(board, registers));
}

// A condition, by a board; none, which always holds, of an empty text. Refused where it is none.
export function conditionOf(text, symbols) {
    if (text.trim() === '') return () => true;
    const all = text.split(/\band\b/i).map((part) => comparisonOf(part, symbols));
    return (board) => {
        const registers = registersOf(board);
        return all.every((holds) => holds(board, registers));
    };
}
