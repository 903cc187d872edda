// What a line of a source says, by docs/ASSEMBLER.md: words, expressions, the size of what it places. For the causes of a fault, which the assembler
// has told already; nothing is assembled here.

import { DIRECTIVES, FIELDS, MNEMONICS, NUMBERS, REGISTERS, ROWS } from './tables.js';

const TOKEN = /([ \t]+)|([Aa][Ff]')|([A-Za-z_]\w*)|(\d[A-Za-z0-9]*)|('(?:[^']|'')*'(?!'))|(')|([$:,()+*/-])|(;)/y;
const KINDS = ['blank', 'other', 'name', 'number', 'text', 'open', 'sign', 'comment'];
const BASES = { H: 16, B: 2, O: 8, Q: 8, D: 10 };
const LINE = 255; // bytes
const WORD = 65535, LEAST = -(2 ** 31), MOST = 2 ** 31 - 1;
const ROM = 0x4000, DEEPEST = 8; // bytes; IFs that are open
const SHORT = { DB: 'DEFB', DW: 'DEFW', DS: 'DEFS', DM: 'DEFM' };
const COUNTS = { ORG: [1, 1], EQU: [1, 1], IF: [1, 1], ELSE: [0, 0], ENDIF: [0, 0], DEFM: [1, 1], DEFS: [1, 2] }; // operands
const PLACES = {
    n: 'n', nn: 'nn', e: 'e', '(n)': 'n', '(nn)': 'nn', '(IX+d)': 'd', '(IY+d)': 'd', b: 'number', t: 'number', m: 'number',
};
const NAMES = new Set([...REGISTERS, "AF'"]);
export const OPERATIONS = new Set([...MNEMONICS, ...DIRECTIVES]);
const RESERVED = new Set([...OPERATIONS, ...REGISTERS]);

class Refusal extends Error {}

// ---- Words

// The number of a word that begins with a digit; nothing where it is none.
export function numberOf(word) {
    const base = BASES[word.at(-1).toUpperCase()], digits = (base ? word.slice(0, -1) : word).toUpperCase();
    const known = '0123456789ABCDEF'.slice(0, base ?? 10);
    if (![...digits].every((digit) => known.includes(digit))) return null;
    const value = parseInt(digits || '0', base ?? 10);
    return value > WORD ? null : value;
}

// The words of a line, a byte a character, each { kind, word }, up to its comment or to where a fault is: the rest from there on, in `rest`.
export function scanned(line) {
    const tokens = [];
    let at = 0;
    while (at < line.length) {
        TOKEN.lastIndex = at;
        const match = TOKEN.exec(line), which = match ? match.findIndex((text, group) => group > 0 && text !== undefined) - 1 : -1;
        const kind = KINDS[which], word = match?.[0];
        if (kind === 'comment') break;
        const isWrong = match === null || kind === 'open' || kind === 'number' && numberOf(word) === null;
        const inside = kind === 'text' ? word.search(/[^\t\x20-\x7e]/) : -1;
        if (isWrong || inside >= 0) return { tokens, rest: line.slice(at + Math.max(0, inside)), at, wrong: kind === 'number' ? word : null };
        if (kind !== 'blank') tokens.push({ kind, word });
        at += word.length;
    }
    return { tokens, rest: '', at, wrong: null };
}

// The characters of a text.
export function characters(word) {
    return word.slice(1, -1).replaceAll("''", "'");
}

const isSign = (token, signs) => token?.kind === 'sign' && signs.includes(token.word);

// ---- Expressions, as trees: what it is, and its parts

function operandOf(found) {
    const token = found.shift();
    if (token?.kind === 'number') return ['number', numberOf(token.word)];
    if (token?.kind === 'text' && characters(token.word).length === 1) return ['number', characters(token.word).charCodeAt(0)];
    if (token?.kind === 'name' && !RESERVED.has(token.word.toUpperCase())) return ['name', token.word];
    if (isSign(token, '$')) return ['here'];
    if (!isSign(token, '(')) throw new Refusal();
    const tree = sumOf(found);
    if (!isSign(found.shift(), ')')) throw new Refusal();
    return tree;
}

function signedOf(found) {
    return isSign(found[0], '+-') ? [`sign ${found.shift().word}`, signedOf(found)] : operandOf(found);
}

function chainOf(found, part, signs) {
    let tree = part(found);
    while (isSign(found[0], signs)) tree = [found.shift().word, tree, part(found)];
    return tree;
}

function sumOf(found) {
    return chainOf(found, (some) => chainOf(some, signedOf, '*/'), '+-');
}

// The tree of words that are an expression and nothing else.
function expression(found) {
    const rest = [...found], tree = sumOf(rest);
    if (rest.length > 0) throw new Refusal();
    return tree;
}

// The tree of a text that is an expression and nothing else; nothing of another one.
export function expressionOf(text) {
    const { tokens, rest } = scanned(text);
    try {
        return rest === '' ? expression(tokens) : null;
    } catch (error) {
        if (error instanceof Refusal) return null;
        throw error;
    }
}

// The names in a tree.
export function namesOf(tree) {
    return tree[0] === 'name' ? [tree[1]] : tree.slice(1).filter(Array.isArray).flatMap(namesOf);
}

const DOES = { '+': (x, y) => x + y, '-': (x, y) => x - y, '*': (x, y) => x * y, '/': (x, y) => (y === 0 ? NaN : Math.trunc(x / y)) };

// The value of a tree; nothing where it has none, or a name of it none.
export function valueOf(tree, symbols, here) {
    if (tree[0] === 'number') return tree[1];
    if (tree[0] === 'here') return here;
    if (tree[0] === 'name') return symbols.get(tree[1]) ?? null;
    const parts = tree.slice(1).map((part) => valueOf(part, symbols, here));
    if (parts.includes(null)) return null;
    const value = tree[0] === 'sign +' ? parts[0] : tree[0] === 'sign -' ? -parts[0] : DOES[tree[0]](...parts);
    return value >= LEAST && value <= MOST ? value + 0 : null;
}

// ---- Instructions

// The forms of a row, one for each code: the words of its text, and the bytes of its code.
function* expanded(text, code) {
    const letters = Object.keys(FIELDS).find((field) => code.includes(field));
    if (letters) {
        for (const [name, bits] of Object.entries(FIELDS[letters])) yield* expanded(text.replaceAll(letters, name), code.replaceAll(letters, bits));
        return;
    }
    const number = Object.keys(NUMBERS).find((field) => code.includes(field));
    const bytes = code.split(' ').map((word) => (word === 'nn' ? 2 : 1)).reduce((one, other) => one + other);
    const [, operation, operands] = /^(\S+) ?(.*)$/.exec(text);
    yield { operation, operands, size: bytes, numbers: number ? NUMBERS[number] : null };
}

// Each operation with its operands: its size, and the numbers that it takes in its code.
export const INSTRUCTIONS = new Map();
for (const [text, code] of ROWS) {
    const both = code.startsWith('DD') ? [text, text.replaceAll('IX', 'IY')] : [text];
    for (const one of both) {
        for (const { operation, operands, size, numbers } of expanded(one, code)) {
            const name = `${operation} ${operands.replaceAll('_', ' ')}`.trim();
            if (!INSTRUCTIONS.has(name)) INSTRUCTIONS.set(name, { size, numbers });
        }
    }
}

// Operands, parted by commas.
export function parted(found) {
    if (found.length === 0) return [];
    const operands = [[]];
    for (const token of found) {
        if (isSign(token, ',')) operands.push([]);
        else operands.at(-1).push(token);
    }
    if (!operands.every((operand) => operand.length > 0)) throw new Refusal();
    return operands;
}

function isClosedByLast(found) {
    let depth = 0;
    for (const [at, token] of found.entries()) {
        depth += isSign(token, '(') ? 1 : isSign(token, ')') ? -1 : 0;
        if (depth === 0) return at > 0 && at === found.length - 1;
    }
    return false;
}

// What an operand may be in a form, each with its tree where it has one.
export function shapes(found) {
    const upper = found[0].word.toUpperCase();
    if (found.length === 1 && (found[0].kind === 'name' || found[0].kind === 'other') && NAMES.has(upper)) return [[upper, null]];
    if (!isClosedByLast(found)) return ['n', 'nn', 'e', 'b', 't', 'm'].map((letter) => [letter, expression(found)]);
    const inside = found.slice(1, -1), first = inside[0]?.kind === 'name' ? inside[0].word.toUpperCase() : '', isIndex = first === 'IX' || first === 'IY';
    if (inside.length === 1 && NAMES.has(first)) return [[`(${first})`, null], ...(isIndex ? [[`(${first}+d)`, ['number', 0]]] : [])];
    if (isIndex && isSign(inside[1], '+-')) return [[`(${first}+d)`, expression(inside.slice(1))]];
    return ['(n)', '(nn)'].map((letter) => [letter, expression(inside)]);
}

function instruction(label, operation, operands) {
    if (operands.length > 2) throw new Refusal();
    const choices = operands.map(shapes).reduce((all, some) => all.flatMap((one) => some.map((other) => [...one, other])), [[]]);
    for (const choice of choices) {
        const found = INSTRUCTIONS.get(`${operation} ${choice.map(([pattern]) => pattern).join(',')}`.trim());
        if (!found) continue;
        const places = choice.filter(([, tree]) => tree).map(([pattern, tree]) => ({ kind: PLACES[pattern], tree }));
        return { label, operation, atOnce: null, places, size: found.size, numbers: found.numbers };
    }
    throw new Refusal();
}

function bytesOf(operand) {
    if (operand.length === 1 && operand[0].kind === 'text')
        return [...characters(operand[0].word)].map((sign) => ({ kind: 'n', tree: ['number', sign.charCodeAt(0)] }));
    return [{ kind: 'n', tree: expression(operand) }];
}

function directive(label, word, operands) {
    const operation = SHORT[word] ?? word, [least, most] = COUNTS[operation] ?? [1, 255], isPlain = !['ORG', 'EQU', 'IF', 'ELSE', 'ENDIF'].includes(operation);
    if (operands.length < least || operands.length > most || !isPlain && (label === null) !== (operation !== 'EQU')) throw new Refusal();
    if (operation === 'DEFM' && (operands[0].length !== 1 || operands[0][0].kind !== 'text')) throw new Refusal();
    const line = { label, operation, atOnce: null, numbers: null };
    if (operation === 'DEFB' || operation === 'DEFM') {
        const places = operands.flatMap(bytesOf);
        return { ...line, places, size: places.length };
    }
    const trees = operands.map(expression);
    if (operation === 'DEFW') return { ...line, places: trees.map((tree) => ({ kind: 'nn', tree })), size: 2 * trees.length };
    return { ...line, atOnce: trees[0] ?? null, places: trees.slice(1).map((tree) => ({ kind: 'n', tree })), size: null };
}

const EMPTY = { label: null, operation: null, atOnce: null, places: [], size: null, numbers: null };

const KEPT = 8192, kept = new Map(); // lines that were read before

// What a line says; nothing where it has a fault by itself.
export function readLine(line) {
    if (!kept.has(line)) {
        if (kept.size === KEPT) kept.clear();
        kept.set(line, readAnew(line));
    }
    return kept.get(line);
}

function readAnew(line) {
    const { tokens, rest } = scanned(line);
    if (rest || line.length > LINE) return null;
    if (tokens.length === 0) return EMPTY;
    try {
        let label = null;
        if (tokens[0].kind === 'name' && !OPERATIONS.has(tokens[0].word.toUpperCase())) {
            label = tokens.shift().word;
            if (NAMES.has(label.toUpperCase())) return null;
            if (isSign(tokens[0], ':')) tokens.shift();
            if (tokens.length === 0) return { ...EMPTY, label };
        }
        const { kind, word } = tokens.shift(), operation = word.toUpperCase();
        if (kind !== 'name' || !OPERATIONS.has(operation)) return null;
        return (DIRECTIVES.includes(operation) ? directive : instruction)(label, operation, parted(tokens));
    } catch (error) {
        if (error instanceof Refusal) return null;
        throw error;
    }
}

// ---- Sources

// The lines of a source's bytes, a byte a character.
export function linesOf(bytes) {
    let text = '';
    for (let at = 0; at < bytes.length; at += 32768) text += String.fromCharCode(...bytes.subarray(at, at + 32768));
    const lines = text.split('\n'), last = lines.pop();
    return [...lines.map((line) => line.replace(/\r$/, '')), ...(last ? [last] : [])];
}

// A line's first word in capitals.
export function firstWord(line) {
    return /^[ \t]*([A-Za-z0-9_]*)/.exec(line)[1].toUpperCase();
}

// What is known of lines that have no fault in the first phase: symbols, and of each line its place.
export class Known {
    constructor() {
        Object.assign(this, { symbols: new Map(), definedIn: new Map(), at: 0, open: [], spots: [] });
    }

    // Whether a line is skipped.
    skips(word) {
        const inner = this.open.at(-1);
        if (inner === undefined || inner === 'true' || inner === 'else') return false;
        if (word === 'IF' && this.open.length < DEEPEST) this.open.push('inner');
        else if (inner === 'inner') {
            if (word === 'ENDIF') this.open.pop();
        } else if (word === 'ENDIF' || word === 'ELSE' && inner === 'false') return false;
        return true;
    }

    branch({ operation, atOnce }) {
        if (operation === 'IF') this.open.push(valueOf(atOnce, this.symbols, this.at) ? 'true' : 'false');
        else if (operation === 'ENDIF') this.open.pop();
        else this.open[this.open.length - 1] = this.open.at(-1) === 'true' ? 'rest' : 'else';
    }

    // Takes a line.
    take(text) {
        const spot = { at: this.at, size: null, isSkipped: this.skips(firstWord(text)) };
        this.spots.push(spot);
        const line = spot.isSkipped ? null : readLine(text);
        if (!line) return;
        if (['IF', 'ELSE', 'ENDIF'].includes(line.operation)) {
            this.branch(line);
            return;
        }
        const value = line.atOnce ? valueOf(line.atOnce, this.symbols, this.at) : null;
        if (line.label && !this.symbols.has(line.label)) {
            this.symbols.set(line.label, line.operation === 'EQU' ? value : this.at);
            this.definedIn.set(line.label, this.spots.length);
        }
        spot.size = line.operation === 'DEFS' ? value : line.size;
        if (line.operation === 'ORG') this.at = value;
        else if (spot.size !== null) this.at = Math.min(ROM, this.at + spot.size);
    }
}
