// What is so of a line of a source that was refused, by the names that tools/lib/causes.json asks for; tools/lib/facts.py has the same, and
// tools/check/studio holds both against each other. A fact that isn't there is null, false, or empty.

import { characters, firstWord, INSTRUCTIONS, Known, linesOf, namesOf, OPERATIONS, parted, readLine, scanned, shapes, valueOf } from './reader.js';
import { CONDITIONS, DIRECTIVES, FORMS, REGISTERS } from './tables.js';

const JUMPS = ['JP', 'JR', 'CALL', 'DJNZ'];
const ALONE = CONDITIONS.filter((name) => name !== 'C'); // conditions that no register has the name of
const RANGES = { n: [-128, 255], nn: [-32768, 65535], d: [-128, 127], e: [-128, 127] };
const WORDS = [...OPERATIONS].sort();
const COMMA = { kind: 'sign', word: ',' }, NOTHING = { kind: '', word: '' };

// How many letters have to be put in, left out, changed, or swapped with the next one, to make one word of another.
function distance(one, other) {
    const rows = [Array.from({ length: other.length + 1 }, (_, at) => at)];
    for (let at = 1; at <= one.length; at++) {
        const row = [at], above = rows.at(-1);
        for (let to = 1; to <= other.length; to++) {
            let best = Math.min(row[to - 1] + 1, above[to] + 1, above[to - 1] + (one[at - 1] === other[to - 1] ? 0 : 1));
            if (at > 1 && to > 1 && one[at - 1] === other[to - 2] && one[at - 2] === other[to - 1]) best = Math.min(best, rows.at(-2)[to - 2] + 1);
            row.push(best);
        }
        rows.push(row);
    }
    return rows.at(-1).at(-1);
}

// How many letters of a word aren't among some letters: so many have to be changed at least.
function strangers(letters, word) {
    let count = 0;
    for (const letter of word) count += letters.has(letter) ? 0 : 1;
    return count;
}

// Whether one list comes before another of the same length.
function isBefore(one, other) {
    for (const [at, part] of one.entries()) if (part !== other[at]) return part < other[at];
    return false;
}

// The name that is most like a word, where one is: at most a letter in three is another; one of the same letters before others.
export function near(word, names) {
    const upper = word.toUpperCase(), letters = new Set(upper), most = Math.floor((upper.length + 1) / 3), sorted = [...upper].sort().join('');
    let best = null;
    for (const name of names) {
        const other = name.toUpperCase();
        if (Math.abs(other.length - upper.length) > most || other === upper || strangers(letters, other) > most) continue;
        const isSame = [...other].sort().join('') === sorted, count = upper.length > 2 || isSame ? distance(upper, other) : Infinity;
        const found = [count, isSame ? 0 : 1, other[0] === upper[0] ? 0 : 1, name];
        if (count <= most && (best === null || isBefore(found, best))) best = found;
    }
    return best === null ? null : best[3];
}

const isSign = ({ kind, word }, sign) => kind === 'sign' && word === sign;

// Words as a text, with a blank only where two would be one, and after the first.
function joined(tokens) {
    return tokens.map(({ kind, word }, at) => {
        const isApart = at === 1 || at > 0 && kind !== 'sign' && tokens[at - 1].kind !== 'sign';
        return isApart && word !== ':' ? ` ${word}` : word;
    }).join('');
}

// The line up to its comment or to its fault, without texts.
function bareOf(line) {
    return line.slice(0, scanned(line).at).replace(/'(?:[^']|'')*'/g, "''");
}

// A line that was refused, with its source and its code.
export class Refused {
    constructor(code, source, number) {
        Object.assign(this, { code, number, lines: linesOf(source), kept: new Map() });
        this.line = this.lines[number - 1];
        this.scanned = scanned(this.line);
        this.tokens = this.scanned.tokens;
        const first = this.tokens[0] ?? NOTHING;
        this.label = first.kind === 'name' && !OPERATIONS.has(first.word.toUpperCase()) ? first.word : '';
        this.statement = this.tokens.slice(this.label ? 1 : 0);
        while (this.label && this.statement.length > 0 && isSign(this.statement[0], ':')) this.statement.shift();
        const { kind, word } = this.statement[0] ?? NOTHING;
        this.operation = kind === 'name' && OPERATIONS.has(word.toUpperCase()) ? word.toUpperCase() : '';
        this.second = this.label && kind === 'name' ? word : '';
        this.rest = this.statement.slice(1);
        this.names = this.rest.filter((token) => token.kind === 'name').map((token) => token.word);
    }

    // What is asked for, which is kept.
    once(name, answer) {
        if (!this.kept.has(name)) this.kept.set(name, answer());
        return this.kept.get(name);
    }

    // A fact by its name.
    fact(name) {
        return this.once(`fact ${name}`, () => FACTS[name](this));
    }

    // ---- The line alone

    hasColon() {
        return this.tokens.length > 1 && isSign(this.tokens[1], ':');
    }

    // The names with which it begins, but for an operation and a label that is known by its colon.
    heads() {
        return (this.hasColon() ? [this.second] : [this.label, this.second]).filter((word) => word && !OPERATIONS.has(word.toUpperCase()));
    }

    // The first of its words that is like an operation; what is a label elsewhere is none.
    nearOperation() {
        return this.heads().find((word) => near(word, WORDS) !== null && [0, this.number].includes(this.definition(word))) ?? '';
    }

    // What is wrong in its list of operands, and the word after it.
    listed() {
        const found = this.rest, isData = ['DEFB', 'DB', 'DEFM', 'DM'].includes(this.operation);
        for (let at = 0; at <= found.length && found.length > 0; at++) {
            const left = found[at - 1] ?? COMMA, right = found[at] ?? COMMA;
            if ((left.kind !== 'sign' || left.word === ')') && (right.kind !== 'sign' || right.word === '(')) return ['comma', right.word];
            if (left.kind === 'sign' && right.kind === 'sign' && ',+-*/('.includes(left.word) && ',)*/'.includes(right.word)) return ['operand', ''];
            const isItem = isData && isSign(right, ',') && isSign(found[at - 2] ?? COMMA, ',');
            if (left.kind === 'text' && characters(left.word).length !== 1 && !isItem) return ['text', ''];
        }
        return ['', ''];
    }

    // A register with which it reckons; an index may have a displacement.
    reckoned() {
        const found = [NOTHING, ...this.rest, NOTHING], reckons = ({ word }) => '+-*/'.includes(word) && word !== '';
        for (let at = 1; at < found.length - 1; at++) {
            const { kind, word } = found[at], isIndex = /^I[XY]$/i.test(word) && found[at - 1].word === '(';
            const isReckoned = reckons(found[at - 1]) || !isIndex && reckons(found[at + 1]);
            if (kind === 'name' && REGISTERS.includes(word.toUpperCase()) && isReckoned) return word;
        }
        return '';
    }

    // A register where a jump has its target.
    target() {
        const { kind, word } = this.rest.at(-1) ?? NOTHING, isAlone = this.rest.length === 1 || this.rest.length > 1 && isSign(this.rest.at(-2), ',');
        return JUMPS.includes(this.operation) && isAlone && kind === 'name' && REGISTERS.includes(word.toUpperCase()) ? word : '';
    }

    // A register or condition in a directive, or a condition in an instruction that has none.
    reserved() {
        const taken = DIRECTIVES.includes(this.operation) ? REGISTERS : [...JUMPS, 'RET'].includes(this.operation) ? [] : ALONE;
        return this.names.find((word) => taken.includes(word.toUpperCase())) ?? '';
    }

    // What the second operand may be after the first.
    secondOperands() {
        let first;
        try {
            first = shapes(parted(this.rest)[0]).map(([shape]) => `${this.operation} ${shape},`);
        } catch {
            return [];
        }
        const fits = [...INSTRUCTIONS.keys()].flatMap((form) => first.filter((head) => form.startsWith(head)).map((head) => form.slice(head.length)));
        return [...new Set(fits)].sort();
    }

    // ---- The source

    get read() {
        return this.once('read', () => readLine(this.line));
    }

    // What is known of so many lines.
    phased(count) {
        const known = new Known();
        for (const line of this.lines.slice(0, count)) known.take(line);
        return known;
    }

    get above() {
        return this.once('above', () => this.phased(this.number - 1));
    }

    // Whether it is refused only once all lines have their places.
    get isLate() {
        return this.code === 'A8' || this.code === 'A9' || this.code === 'A10' && (!this.read.atOnce || this.atOnce() !== null);
    }

    // What is known where it is refused: of all lines, or of those above.
    get known() {
        return this.once('known', () => (this.isLate ? this.phased(this.lines.length) : this.above));
    }

    get here() {
        return this.above.at;
    }

    value(tree) {
        return valueOf(tree, this.known.symbols, this.here);
    }

    // The value that the line needs at once.
    atOnce() {
        return this.read?.atOnce ? valueOf(this.read.atOnce, this.above.symbols, this.here) : null;
    }

    // The expressions of the line that count.
    trees() {
        return this.isLate ? this.read.places.map(({ tree }) => tree) : this.read.atOnce ? [this.read.atOnce] : [];
    }

    // The first line that has a label, skipped ones too.
    definition(name) {
        return this.lines.findIndex((line) => line.includes(name) && readLine(line)?.label === name) + 1;
    }

    // Its names that aren't defined, each with what is known of it.
    undefined() {
        const { symbols, definedIn } = this.known, names = [...new Set(this.trees().flatMap(namesOf))].filter((name) => !symbols.has(name)).sort();
        return names.map((name) => {
            const at = this.definition(name);
            const isBelow = at > this.number && !this.isLate, close = near(name, symbols.keys()) ?? '';
            const alike = [...symbols.keys()].find((other) => other.toUpperCase() === name.toUpperCase()) ?? '';
            return {
                name, below: isBelow ? at : 0, itself: at === this.number, skipped: isBelow ? 0 : at,
                alike, 'alike in': definedIn.get(alike) ?? null, near: close, 'near in': definedIn.get(close) ?? null,
            };
        });
    }

    // Its values that their places don't take.
    values() {
        return this.read.places.map(({ kind, tree }) => {
            const value = this.value(tree), [least, most] = RANGES[kind] ?? [value, value], away = value - this.here - 2;
            const compared = kind === 'e' ? away : value, numbers = kind === 'number' ? this.read.numbers : [];
            const isTaken = compared >= least && compared <= most && (kind !== 'number' || numbers.includes(value));
            return isTaken ? null : { kind, value, away, least, most, tree, names: [...new Set(namesOf(tree))].sort(), numbers };
        }).filter(Boolean);
    }

    // The first line whose bytes are in this one's place.
    other() {
        const begin = this.here, end = begin + (this.read.operation === 'DEFS' ? this.atOnce() ?? 0 : this.read.size);
        const line = this.known.spots.findIndex(({ at, size, isSkipped }) => !isSkipped && size !== null && at < end && begin < at + size) + 1;
        return line > 0 ? { line, begin: this.known.spots[line - 1].at } : { line: null, begin: null };
    }

    // Its expressions without a value.
    valueless() {
        return this.trees().filter((tree) => this.value(tree) === null);
    }

    // Whether the innermost part that has no value divides by 0.
    dividesByZero() {
        const parts = this.trees();
        for (let at = 0; at < parts.length; at++) parts.push(...parts[at].slice(1).filter(Array.isArray));
        const wrong = parts.reverse().find((tree) => this.value(tree) === null);
        return wrong !== undefined && wrong[0] === '/' && this.value(wrong[2]) === 0;
    }

    // The lines above with IF, ELSE and ENDIF, and of each IF that is open its line and that of its ELSE.
    conditions() {
        const above = [], open = [];
        this.lines.slice(0, this.number - 1).forEach((line, before) => {
            const word = firstWord(line), at = before + 1;
            if (['IF', 'ELSE', 'ENDIF'].includes(word)) above.push(at);
            if (word === 'IF') open.push([at, 0]);
            else if (word === 'ELSE' && open.length > 0) open.at(-1)[1] = at;
            else if (word === 'ENDIF') open.pop();
        });
        return { above, open };
    }
}

const FACTS = {
    'length': (it) => it.line.length,
    'rest': (it) => it.scanned.rest,
    'word': (it) => it.scanned.wrong ?? '',
    'comment': (it) => /\/\/|\/\*|^[ \t]*\*/.test(bareOf(it.line)),
    'heads': (it) => it.heads(),
    'no name': (it) => it.tokens.length > 0 && it.tokens[0].kind !== 'name',
    'label': (it) => it.label,
    'label near': (it) => near(it.label, OPERATIONS),
    'label is reserved': (it) => REGISTERS.includes(it.label.toUpperCase()),
    'colon': (it) => it.hasColon(),
    'nothing more': (it) => it.statement.length === 0,
    'statement': (it) => joined(it.operation ? it.statement : it.tokens),
    'operation': (it) => it.operation,
    'near operation': (it) => it.nearOperation(),
    'operation near': (it) => near(it.nearOperation(), WORDS) ?? '',
    'parentheses': (it) => it.rest.filter((token) => isSign(token, '(')).length !== it.rest.filter((token) => isSign(token, ')')).length,
    'operation within': (it) => it.names.find((word) => OPERATIONS.has(word.toUpperCase())) ?? '',
    'colon within': (it) => it.rest.some((token) => isSign(token, ':')),
    'names': (it) => it.names,
    'commas': (it) => it.rest.filter((token) => isSign(token, ',')).length,
    'list': (it) => it.listed()[0],
    'list word': (it) => it.listed()[1],
    'reckoned': (it) => it.reckoned(),
    'target': (it) => it.target(),
    'target is a condition': (it) => it.rest.length === 1 && CONDITIONS.includes(it.target().toUpperCase()),
    'reserved': (it) => it.reserved(),
    'forms': (it) => FORMS[it.operation] ?? [],
    'forms count': (it) => (FORMS[it.operation] ?? []).length,
    'second operands': (it) => it.secondOperands(),
    'defined in': (it) => it.known.definedIn.get(it.label) ?? null,
    'at once': (it) => it.atOnce(),
    'here': (it) => it.here,
    'other line': (it) => it.other().line,
    'other begin': (it) => it.other().begin,
    'undefined': (it) => it.undefined(),
    'values': (it) => it.values(),
    'divides by zero': (it) => it.dividesByZero(),
    'conditions': (it) => it.conditions().above,
    'open': (it) => it.conditions().open.map(([at]) => at),
    'open in': (it) => it.conditions().open.at(-1)?.[0] ?? 0,
    'else in': (it) => it.conditions().open.at(-1)?.[1] ?? 0,
    'ends nothing': (it) => it.lines.findIndex((line) => /^[ \t]*\w+[ \t]*:?[ \t]+ENDIF\b/i.test(line)) + 1,
};
