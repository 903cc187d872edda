// Reads a manifest: the part of TOML that sets are written in, which is tables, arrays of tables, and keys with values in one line. What is no TOML
// is refused in the words of Python's tomllib, as bin/explain says them; what may be TOML but isn't of that part, in words of the page's own.

import { Fault } from './bytes.js';
import { sentences } from './causes.js';

const ESCAPES = { b: '\b', t: '\t', n: '\n', f: '\f', r: '\r', '"': '"', '\\': '\\' };
const BARE = /[\w-]+/y, BLANKS = /[ \t]*/y, COMMENT = /#[^\n]*/y, REST = /[^\n]*/y;
const LETTERS = /[^\u0000-\u0008\u000a-\u001f"\\\u007f]*/y, LITERAL = /[^\u0000-\u0008\u000a-\u001f'\u007f]*/y;
const NUMBER = /0x[\dA-Fa-f](?:_?[\dA-Fa-f])*|0b[01](?:_?[01])*|0o[0-7](?:_?[0-7])*|[+-]?(?:(?:0|[1-9](?:_?\d)*)(?:\.\d(?:_?\d)*)?(?:[eE][+-]?\d(?:_?\d)*)?|inf|nan)/y;
const TIME = /(?:\d{4}-\d\d-\d\d(?:[Tt ]\d\d:\d\d(?::\d\d(?:\.\d+)?)?(?:Z|z|[+-]\d\d:\d\d)?)?|\d\d:\d\d(?::\d\d(?:\.\d+)?)?)/y;
const WORD = /true|false/y;

// A character as Python shows it.
function shown(letter) {
    const known = { '\n': '\\n', '\r': '\\r', '\t': '\\t' }[letter], code = letter.charCodeAt(0);
    return `'${known ?? (code < 32 || code === 127 ? `\\x${code.toString(16).padStart(2, '0')}` : letter)}'`;
}

class Reader {
    constructor(text) {
        this.text = text.replaceAll('\r\n', '\n');
        this.at = 0;
        this.root = new Map(); // the keys before the first table
        this.tables = new Map();
        this.pairs = this.root;
    }

    // The refusal of a fault at a place.
    refused(words, at = this.at) {
        const line = this.text.slice(0, at).split('\n').length, column = at - this.text.lastIndexOf('\n', at - 1);
        const place = at >= this.text.length ? 'end of document' : `line ${line}, column ${at === 0 ? 1 : column}`, toml = `${words} (at ${place})`;
        return new Fault('M1', sentences('M1', (name) => (name === 'toml' ? toml : '')).join('; '), place);
    }

    // Of what may be right, but isn't read here.
    unread(what) {
        const line = this.text.slice(0, this.at).split('\n').length;
        return new Fault('M1', `line ${line} of the manifest: this page doesn't read ${what}; pacboard does, if it is TOML`, `line ${line}`);
    }

    // What a pattern finds here, and goes past it.
    take(pattern) {
        pattern.lastIndex = this.at;
        const found = pattern.exec(this.text)?.[0];
        this.at += found?.length ?? 0;
        return found;
    }

    next(letters) {
        return this.text.startsWith(letters, this.at);
    }

    // Takes letters that have to come.
    needed(letters, words) {
        if (!this.next(letters)) throw this.refused(words);
        this.at += letters.length;
    }

    // A text between double quotes.
    string() {
        let text = '';
        this.at++;
        for (;;) {
            text += this.take(LETTERS);
            const letter = this.text[this.at];
            if (letter === undefined) throw this.refused('Unterminated string');
            this.at++;
            if (letter === '"') return text;
            if (letter !== '\\') throw this.refused(`Illegal character ${shown(letter)}`, this.at - 1);
            text += this.escape();
        }
    }

    // What stands for a letter after a backslash.
    escape() {
        const letter = this.text[this.at++], code = /^u([\dA-Fa-f]{4})/.exec(this.text.slice(this.at - 1, this.at + 4))?.[1];
        if (code === undefined && letter && 'uUxe'.includes(letter)) throw this.unread('this escape');
        if (code === undefined && ESCAPES[letter] === undefined) throw this.refused("Unescaped '\\' in a string");
        this.at += code === undefined ? 0 : 4;
        return code === undefined ? ESCAPES[letter] : String.fromCharCode(parseInt(code, 16));
    }

    // A text between single quotes.
    literal() {
        const from = ++this.at, text = this.take(LITERAL);
        if (this.next("'")) {
            this.at++;
            return text;
        }
        if (this.text.indexOf("'", from) < 0) throw this.refused('Expected "\'"', this.text.length);
        throw this.refused(`Found invalid character ${shown(this.text[this.at])}`);
    }

    // A key, or a table's name.
    key() {
        if (this.next('"')) return this.string();
        if (this.next("'")) return this.literal();
        const key = this.take(BARE);
        if (key === undefined) throw this.refused('Invalid initial character for a key part');
        return key;
    }

    // A key of one part, and the blanks after it.
    onePart() {
        const key = this.key();
        this.take(BLANKS);
        if (this.next('.')) throw this.unread('keys of more than one part');
        return key;
    }

    // A table's head.
    table() {
        const isArray = this.next('[['), close = isArray ? ']]' : ']';
        this.at += close.length;
        this.take(BLANKS);
        const name = this.onePart(), all = this.tables.get(name);
        if (all && !isArray) throw this.refused(`Cannot declare ('${name}',) twice`);
        if (this.root.has(name) || all && !Array.isArray(all)) throw this.refused('Cannot overwrite a value');
        this.pairs = new Map();
        this.tables.set(name, isArray ? [...all ?? [], this.pairs] : this.pairs);
        this.needed(close, `Expected '${close}' at the end of ${isArray ? 'an array' : 'a table'} declaration`);
    }

    // A value: a text, or nothing for one of another kind.
    value() {
        if (this.next('"""') || this.next("'''")) throw this.unread('texts of more than one line');
        if (this.next('"')) return this.string();
        if (this.next("'")) return this.literal();
        if (this.next('[') || this.next('{')) return this.nested();
        if ((this.take(WORD) ?? this.take(TIME) ?? this.take(NUMBER)) === undefined) throw this.refused('Invalid value');
        return null;
    }

    // An array or a table in one line, of which nothing is used.
    nested() {
        const close = this.next('[') ? ']' : '}', from = this.at, row = this.take(REST).replace(/"(?:[^"\\]|\\.)*"|'[^']*'/g, (text) => '.'.repeat(text.length));
        const end = row.indexOf(close, 1), inside = row.slice(1, end);
        this.at = from;
        if (end < 0 || /[[\]{}#]/.test(inside) || this.pairs === this.root && close === '}') throw this.unread('this value');
        this.at += end + 1;
        return null;
    }

    // A key with its value.
    pair() {
        const key = this.onePart();
        this.needed('=', "Expected '=' after a key in a key/value pair");
        this.take(BLANKS);
        const value = this.value();
        if (this.pairs.has(key) ) throw this.refused('Cannot overwrite a value');
        this.pairs.set(key, value);
    }

    // All of it.
    all() {
        while (this.at < this.text.length) {
            this.take(BLANKS);
            if (this.next('[')) this.table();
            else if (this.at < this.text.length && !/[\n#]/.test(this.text[this.at])) {
                if (!/[\w"'-]/.test(this.text[this.at])) throw this.refused('Invalid statement');
                this.pair();
            }
            this.take(BLANKS);
            this.take(COMMENT);
            if (this.at < this.text.length) this.needed('\n', 'Expected newline or end of document after a statement');
        }
        return { root: this.root, tables: this.tables };
    }
}

// The tables of a manifest, each name with its pairs or with an array of them, and the keys before the first.
export function tablesOf(text) {
    return new Reader(text).all();
}
