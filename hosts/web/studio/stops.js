// The pane of breakpoints: lines and addresses before which the run rests, and addresses that are written to or read, after which it does; each
// with a condition where one is wanted.

import { hex } from './bytes.js';
import { conditionOf } from './conditions.js';
import { Stops } from './look.js';
import { link, made } from './parts.js';

const ABOUT = 'Click on a line\'s number to rest before it, and again to take that back; or rest after each write to an address (w 4C00), each read '
    + '(r 4C00) or both (rw 4C00). A condition may compare registers, bytes and numbers: HL >= 4C00H and (LIVES) <> 0.';
const WATCHED = /^(?:(w|r|rw)\s+)?(.*)$/is; // an address, with what is watched of it: writes where it isn't said
const KINDS = { w: 1, r: 2, rw: 3 }, TOLD = { w: 'written to', r: 'read', rw: 'read or written to' };

export class StopsPane {
    constructor(root, studio) {
        // each with its line, or its address where it has none, what is watched of that, if anything is, and with what shows it
        Object.assign(this, { root, studio, all: [] });
        this.field = this.asks('address or name', 'Address in hexadecimal, or a name', (text) => this.find(text));
        this.watched = this.asks('w, r or rw address', 'Address that is watched: w, r or rw, and it in hexadecimal, or a name', (text) => this.watch(text));
        this.told = made('span', { className: 'dim' });
        this.rows = made('div', { className: 'stops' });
        const { deck } = studio;
        const button = (text, title, isBack) => made('button', { type: 'button', title, onclick: () => deck.toStop(isBack) }, text);
        root.append(made('p', {}, ABOUT), made('div', { className: 'tools' }, this.field, this.watched, button('On to the next', 'F8', false),
            button('Back to the last', 'Shift F8', true), this.told), this.rows);
    }

    // A field for an address.
    asks(placeholder, label, takes) {
        const field = made('input', { className: 'field', size: 17, placeholder, 'aria-label': label, 'data-keys': '' });
        field.setAttribute('list', 'names');
        field.addEventListener('change', () => takes(field.value.trim()));
        return field;
    }

    show() {}

    // Where one is now; nothing where no line from it on has bytes.
    addressOf({ line, address }) {
        return line === null ? address : this.studio.addressOf(line);
    }

    // Sets one at a line, or takes it away.
    toggle(line) {
        this.changes(this.all.find((one) => one.line === line), { line, address: null, kinds: null });
    }

    // Sets one at an address or a name, or takes it away; or one that watches it, or watches something else of it.
    find(text, kinds = null) {
        const address = this.studio.addressIn(text);
        this.told.textContent = address === null ? `${text}: no address and no name` : '';
        if (address === null) return;
        const old = this.all.find((one) => (one.kinds === null) === (kinds === null) && this.addressOf(one) === address);
        if (!old || old.kinds === kinds) this.changes(old, { line: null, address, kinds });
        else {
            old.kinds = kinds;
            this.renew();
        }
    }

    watch(text) {
        const [, kinds = 'w', name] = WATCHED.exec(text);
        this.find(name, kinds.toLowerCase());
    }

    changes(old, fresh) {
        if (old) this.all = this.all.filter((one) => one !== old);
        else this.adds(fresh);
        this.renew();
    }

    adds(one) {
        const place = link('', 'Go there', () => one.line !== null && this.studio.editor.visit(one.line));
        const field = made('input', { className: 'field', size: 30, placeholder: 'always', 'aria-label': 'Condition', 'data-keys': '' });
        const told = made('span', { className: 'bad' }), away = link('×', 'Take away', () => this.changes(one));
        field.addEventListener('change', () => this.renew());
        this.all.push(Object.assign(one, { place, field, told, row: made('div', {}, place, field, away, told) }));
    }

    // Follows the lines of the source where it is edited: a line that is gone takes its breakpoint along.
    follows(lineOf) {
        if (this.all.length === 0) return;
        for (const one of this.all) if (one.line !== null) one.line = lineOf(one.line);
        this.all = this.all.filter(({ line, address }) => line !== null || address !== null);
        this.renew();
    }

    clear() {
        this.all = [];
        this.renew();
    }

    // Has the run rest at all of them, as the source and the conditions are now. One whose condition is none stops nothing, and says so.
    renew() {
        const { studio } = this, { listing } = studio, places = new Map(), accesses = new Map(), watched = [];
        for (const one of this.all) {
            const address = this.addressOf(one), { line, kinds, field, place, told } = one, found = kinds ? accesses : places;
            place.textContent = `${kinds ? `${TOLD[kinds]}  ` : line === null ? '' : `line ${line}  `}${address === null ? 'no bytes' : hex(address)}`;
            told.textContent = '';
            try {
                const holds = conditionOf(field.value, listing?.symbols ?? new Map());
                if (address !== null) found.set(address, [...found.get(address) ?? [], holds]);
                if (kinds) watched.push([address, KINDS[kinds]]);
            } catch (error) {
                told.textContent = error.message;
            }
        }
        const holds = (board, { pc }, access) => (access ? accesses.get(access.address) : places.get(pc)).some((isSo) => isSo(board));
        studio.session.stops = places.size + watched.length === 0 ? null : new Stops(places.keys(), holds, watched);
        this.rows.replaceChildren(...this.all.map(({ row }) => row));
        studio.editor.stopsAt(this.all.map(({ line }) => line));
    }
}
