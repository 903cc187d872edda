// The source's editor: a plain text area, that has the keys, the selection and the way back of the browser, over lines with marked words, beside
// a gutter with each line's number, address and T-states. Of the lines only those that are seen are drawn.

import { hex } from './bytes.js';
import { marked } from './marks.js';

const LINE = 20; // pixels, as the style sheet has it
const MORE = 8; // lines above and below those that are seen
const TAB = 8; // columns
const LONG = 400; // characters of a line that are marked

function element(name, className, text = '') {
    const made = document.createElement(name);
    made.className = className;
    made.textContent = text;
    return made;
}

// How many lines of two texts are the same: from the first one on, and from the last one back.
function alike(one, other) {
    const most = Math.min(one.length, other.length);
    let before = 0, after = 0;
    while (before < most && one[before] === other[before]) before++;
    while (after < most - before && one.at(-1 - after) === other.at(-1 - after)) after++;
    return { before, after };
}

export class Editor {
    // `changed` is called with each edit, `picked` with a line whose number is clicked on and whether Shift is held, `stands` with the line of the
    // caret, and `moved` with what tells of each line of the text before where it is now.
    constructor(root, changed, picked, stands, moved) {
        this.area = root.querySelector('textarea');
        this.view = root.querySelector('.view');
        this.gutter = root.querySelector('.gutter');
        this.lines = [''];
        this.listing = null;
        Object.assign(this, { listed: [], before: 0, after: 0 }); // the lines of the listing
        this.fault = null; // the line that is refused
        this.others = new Set(); // lines that would be refused after it
        this.current = null; // the line that comes next
        this.stops = new Set(); // lines with a breakpoint
        Object.assign(this, { changed, picked, stands, moved, isDue: false, isStale: false });
        this.area.addEventListener('input', () => this.edited());
        this.area.addEventListener('scroll', () => this.draw());
        this.area.addEventListener('keydown', (event) => this.key(event));
        this.gutter.addEventListener('click', ({ target, shiftKey }) => {
            const row = target.closest('[data-line]');
            if (row) this.picked(Number(row.dataset.line), shiftKey);
        });
        this.gutter.addEventListener('wheel', (event) => this.area.scrollBy(0, event.deltaY), { passive: true });
        document.addEventListener('selectionchange', () => this.caretMoved());
        new ResizeObserver(() => this.draw()).observe(this.area);
    }

    get text() {
        return this.area.value;
    }

    // Takes another source; the browser's way back begins anew.
    set text(text) {
        this.area.value = text;
        this.area.scrollTop = this.area.scrollLeft = 0;
        this.area.setSelectionRange(0, 0);
        this.read();
    }

    // Takes another text of the same source; place and caret stay where they are.
    replace(text) {
        const { scrollTop, scrollLeft, selectionStart } = this.area, before = this.lines;
        this.area.value = text;
        this.area.setSelectionRange(selectionStart, selectionStart);
        Object.assign(this.area, { scrollTop, scrollLeft });
        this.read();
        this.moved(this.wayFrom(before));
    }

    // Reads what stands there.
    read() {
        this.lines = this.area.value.split('\n');
        this.isStale = true;
        this.compare();
        this.draw();
    }

    edited() {
        const before = this.lines;
        this.read();
        this.moved(this.wayFrom(before));
        this.changed();
    }

    // Where each line of another text is now; nothing where it's gone.
    wayFrom(old) {
        const { lines } = this, { before, after } = alike(lines, old);
        return (line) => {
            if (line > before && line > old.length - after) return line + lines.length - old.length;
            return line <= Math.max(before, lines.length - after) ? line : null;
        };
    }

    // A tab fills up to the next column of eight; after Escape it leaves, as everywhere on a page.
    key(event) {
        if (event.key === 'Escape') this.leaves = true;
        else if (event.key === 'Tab' && !this.leaves && !event.shiftKey && !event.ctrlKey && !event.altKey && !event.metaKey) {
            const { value, selectionStart } = this.area, column = selectionStart - value.lastIndexOf('\n', selectionStart - 1) - 1;
            document.execCommand('insertText', false, ' '.repeat(TAB - column % TAB));
            event.preventDefault();
        } else if (event.key !== 'Shift' && event.key !== 'Tab') this.leaves = false;
    }

    // What the assembler says of it: a listing, or the line of a fault.
    say(listing, fault = null) {
        if (listing) Object.assign(this, { listing, listed: this.lines, before: this.lines.length, after: 0 });
        this.isStale = listing === null;
        this.fault = fault;
        this.others = new Set();
        this.draw();
    }

    // Marks lines that would be refused, too.
    marks(lines) {
        this.others = new Set(lines);
        this.draw();
    }

    // How many lines, from the first one on and from the last one back, are those of the last listing.
    compare() {
        Object.assign(this, alike(this.lines, this.listed));
    }

    // What the last listing says of a line that stands here now; nothing of a line that is new.
    rowOf(line) {
        const { lines, listed, before, after } = this;
        const place = line <= before ? line : line > lines.length - after ? line - lines.length + listed.length : 0;
        return this.listing?.lines[place];
    }

    // Marks the line that the processor comes to next.
    at(line, isShown = false) {
        this.current = line;
        if (isShown && line) this.show(line);
        this.draw();
    }

    // Marks lines with a breakpoint.
    stopsAt(lines) {
        this.stops = new Set(lines);
        this.draw();
    }

    // Brings a line into view, where it isn't.
    show(line) {
        const { scrollTop, clientHeight } = this.area, top = (line - 1) * LINE;
        if (top < scrollTop + LINE || top > scrollTop + clientHeight - 3 * LINE) this.area.scrollTop = Math.max(0, top - clientHeight / 3);
    }

    // Goes to a line, and selects it.
    visit(line) {
        const before = this.lines.slice(0, line - 1).reduce((size, one) => size + one.length + 1, 0);
        this.area.focus({ preventScroll: true });
        this.area.setSelectionRange(before, before + (this.lines[line - 1] ?? '').length);
        this.show(line);
    }

    // Tells in which line the caret is.
    caretMoved() {
        if (document.activeElement === this.area) this.stands(this.line);
    }

    // The line in which the caret is.
    get line() {
        let line = 1;
        for (let left = this.area.selectionStart; line < this.lines.length
            && left > this.lines[line - 1].length; line++) left -= this.lines[line - 1].length + 1;
        return line;
    }

    // Draws, with the screen's next picture.
    draw() {
        if (this.isDue) return;
        this.isDue = true;
        requestAnimationFrame(() => {
            this.isDue = false;
            this.drawNow();
        });
    }

    drawNow() {
        const { scrollTop, scrollLeft, clientHeight } = this.area;
        const first = Math.max(1, Math.floor(scrollTop / LINE) + 1 - MORE);
        const last = Math.min(this.lines.length, first + Math.ceil(clientHeight / LINE) + 2 * MORE);
        const rows = [], beside = [];
        for (let line = first; line <= last; line++) {
            rows.push(this.row(line));
            beside.push(this.margin(line));
        }
        this.view.replaceChildren(...rows);
        this.gutter.replaceChildren(...beside);
        const down = (first - 1) * LINE - scrollTop;
        this.view.style.transform = `translate(${-scrollLeft}px, ${down}px)`;
        this.gutter.style.transform = `translateY(${down}px)`;
    }

    // A line with its words marked.
    row(line) {
        const row = element('div', 'row'), text = this.lines[line - 1];
        if (line === this.fault || this.others.has(line)) row.classList.add('fault');
        if (line === this.current) row.classList.add('current');
        for (const [kind, word] of marked(text.slice(0, LONG))) row.append(kind ? element('span', kind, word) : word);
        row.append(text.slice(LONG));
        return row;
    }

    // What stands beside a line: its number, and of the last listing its address and T-states.
    margin(line) {
        const row = element('div', 'row'), found = this.rowOf(line);
        row.dataset.line = line;
        row.classList.toggle('fault', line === this.fault || this.others.has(line));
        row.classList.toggle('current', line === this.current);
        row.classList.toggle('stop', this.stops.has(line));
        row.classList.toggle('stale', this.isStale);
        row.append(element('b', 'number', String(line)), element('span', 'address', found ? hex(found.address) : ''),
            element('span', 'ticks', found?.ticks ?? ''));
        return row;
    }
}
