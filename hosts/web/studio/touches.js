// The pane that tells who wrote a byte, or read it: the last time and each one before, as far as one asks.

import { hex, sliced } from './bytes.js';
import { addressed, link, made } from './parts.js';
import { placeOf, touchesOf } from './who.js';

const AT_ONCE = 12; // that are told, before one asks for more

export class TouchesPane {
    constructor(root, studio) {
        Object.assign(this, { root, studio, address: null, wish: 0, reads: false });
        this.field = made('input', { className: 'field', size: 17, placeholder: 'address or name',
            'aria-label': 'Address in hexadecimal, or a name', 'data-keys': '' });
        this.field.setAttribute('list', 'names');
        this.field.addEventListener('change', () => this.find(this.field.value.trim()));
        this.both = made('input', { type: 'checkbox', id: 'reads' });
        this.both.addEventListener('change', () => this.ask(this.address));
        this.told = made('p', {}, 'Of any byte of the RAM, of the sprites and of the voices: which instruction wrote it, and when. Take a byte in Memory, or name it here.');
        this.rows = made('div', { className: 'rows touches' });
        this.more = made('button', { type: 'button', hidden: true }, 'Earlier ones');
        this.more.addEventListener('click', () => this.go(this.wish));
        root.append(made('div', { className: 'tools' }, this.field, made('label', {}, this.both, 'reads too')), this.told, this.rows, this.more);
    }

    show() {
        if (this.address !== null && this.asked !== this.studio.moment && !this.studio.loop.isPlaying) this.ask(this.address);
    }

    find(text) {
        const address = this.studio.addressIn(text);
        if (address === null) this.told.textContent = `${text}: no address and no name.`;
        else this.ask(address);
    }

    // Asks of an address: nothing of what was asked before is gone on with.
    ask(address) {
        this.wish++;
        this.address = address;
        this.asked = this.studio.moment;
        this.rows.replaceChildren();
        this.more.hidden = true;
        if (address === null) return;
        const name = addressed(this.studio.listing, address, 63);
        this.field.value = hex(address);
        if (placeOf(address) === null) {
            this.told.textContent = `${name}: nothing that is written stays there.`;
            return;
        }
        this.about = name;
        this.steps = touchesOf(this.studio.session.scout('touches'), address);
        this.count = 0;
        this.go(this.wish);
    }

    // Tells some more, in slices.
    async go(wish) {
        let found = 0;
        const { steps, both, studio } = this, pane = this;
        this.more.hidden = true;
        this.told.textContent = `${this.about}, from this moment back …`;
        function* some() {
            while (found < AT_ONCE) {
                const { done, value } = steps.next();
                if (done) return 'all';
                if (value && (both.checked || value.isWrite)) {
                    found++;
                    pane.rows.append(pane.row(value));
                }
                yield null;
            }
            return 'more';
        }
        const end = await sliced(some(), () => wish === this.wish && !studio.loop.isPlaying);
        if (wish !== this.wish) return;
        this.count += found;
        this.told.textContent = `${this.about}, from this moment back:`;
        this.more.hidden = end !== 'more';
        if (end === 'all') this.rows.append(made('div', { className: 'dim' }, made('span', {}, ''),
            made('span', {}, this.count ? 'and none before' : 'none so far')));
        if (end === undefined) this.rows.append(made('div', { className: 'dim' }, made('span', {}, ''), made('span', {}, 'pause to see them')));
    }

    // A touch as a row, with a way to its moment and to its line.
    row({ frame, inside, isWrite, old, value, pc, isInterrupt, tick, line }) {
        const { listing, assembler, session } = this.studio, code = listing?.lineAt.get(pc);
        const text = isInterrupt ? 'the interrupt is accepted' : assembler.disassembled(session.run.board.peek(pc, 4), pc).text;
        const where = line === null ? `T ${tick}` : `line ${line}`;
        return made('div', {},
            link(`${frame}`, 'To this moment', () => this.studio.visits(frame, inside)),
            made('span', { className: 'dim', title: `T-state ${tick} of frame ${frame}` }, where),
            made('span', {}, isWrite ? `${hex(old, 2)} → ${hex(value, 2)}` : `reads ${hex(old, 2)}`,
                made('span', { className: 'dim' }, `   ${hex(pc)} `), text),
            code ? link(`line ${code}`, 'To this line of the source', () => this.studio.editor.visit(code)) : made('span', {}));
    }
}
