// The studio: a source on the left, the board that plays it on the right.

import { canRun } from '../board.js';
import { Assembler } from './assembler.js';
import { causesOf, meaningOf } from './causes.js';
import { bytesOf, counted, equal, Fault, textOf } from './bytes.js';
import { Deck } from './deck.js';
import { Editor } from './editor.js';
import { Entries } from './entries.js';
import { Exits } from './exits.js';
import { faultsOf, LONGEST } from './faults.js';
import { Listing } from './listing.js';
import { Live } from './live.js';
import { fromFragment } from './outputs.js';
import { Panes } from './panes.js';
import { at, link, made, refuse, tell } from './parts.js';
import { filesOfPage } from './payload.js';
import { Controls, Loop, Screen, Speaker } from './player.js';
import { clocksOf, placeInFrame } from './run.js';
import { Session } from './session.js';
import { PLACES } from './tables.js';
import { masksOf } from './tape.js';
import { placeOf } from './who.js';

const EXAMPLES = { starfall: 'Starfall, a game', hello: 'Hello, ten lines', welcome: 'Welcome, a picture', sunset: 'Sunset, drawn by the beam' };
const PROGRAM = 16384; // bytes of a ROM block that the source makes
const TYPED = 160; // milliseconds without a key after which the source is assembled
const SEARCHED = 400; // milliseconds after which other faults than the first are looked for

// Whether what is written at an address can't be read there.
function isPort(address) {
    return (address & 0xff) >= 0x40 && (address & 0xff) < 0x70 && (address & 0x5000) === 0x5000;
}

class Studio {
    constructor(files, module, assembler) {
        Object.assign(this, { files, assembler, listing: null, whole: null, name: 'starfall', latchAt: PLACES.AT_LATCH, places: [] });
        this.set = files.set; // what is in the sockets beside the program
        this.screen = new Screen(at('picture'));
        this.controls = new Controls((before) => this.taken(before));
        this.speaker = new Speaker(textOf(files['sound.js']));
        this.session = new Session(module, this.romsOf(files['starfall.rom']), this.controls, () => this.told());
        this.loop = new Loop({ advance: () => this.advance(), show: () => this.show() }, this.speaker, this.controls);
        this.editor = new Editor(at('source'), () => this.typed(), (line, isRun) => this.picks(line, isRun), (line) => this.stands(line),
            (lineOf) => this.panes.all.stops.follows(lineOf));
        this.deck = new Deck(this);
        this.entries = new Entries(this);
        this.exits = new Exits(this);
        this.panes = new Panes(this);
        at('problem-code').addEventListener('click', () => { if (this.fault) this.editor.visit(this.fault.line); });
        addEventListener('beforeunload', (event) => { if (this.isChanged) event.preventDefault(); });
        this.live = new Live((changed, more) => this.entries.follows(changed, more));
    }

    get roms() {
        return this.session.roms;
    }

    // The moment that is shown, as a text.
    get moment() {
        return `${this.session.run.frame}:${this.session.run.inside}`;
    }

    // The ROM block of a program in the set.
    romsOf(program) {
        const roms = new Uint8Array(PROGRAM + this.set.length);
        roms.set(program);
        roms.set(this.set, PROGRAM);
        return roms;
    }

    // ---- Playing

    advance() {
        const samples = this.session.advance();
        if (samples !== null) return samples;
        this.deck.pause();
        if (this.session.isAtStop) this.deck.follows();
        return null;
    }

    show() {
        this.screen.show(this.session.draw());
        if (!this.isShown && (this.isShown = this.loop.frames > 0)) performance.mark('first picture');
        this.exits.film?.show();
        this.deck.show();
        if (this.loop.frames % 6 === 0 || !this.loop.isPlaying) this.look();
    }

    // Shows what is looked at.
    look() {
        this.panes.show(this.session.run.board.block);
    }

    // Something has changed: all is shown anew.
    told() {
        if (!this.deck) return;
        this.show();
        const { run } = this.session, { listing } = this;
        const { pc } = run.board.registers;
        this.editor.at(this.loop.isPlaying ? null : listing?.lineAt.get(pc) ?? null, !this.loop.isPlaying && this.follows_pc);
        this.deck.stopped(run.stop, listing);
    }

    // Somebody pressed or let go.
    taken() {
        this.session.take();
        if (!this.loop.isPlaying && this.session.run.canGo && this.controls.held) this.deck.play();
    }

    // ---- The source

    typed() {
        this.isChanged = true;
        clearTimeout(this.typing);
        clearTimeout(this.searching);
        this.typing = setTimeout(() => this.assemble(), TYPED);
    }

    // Assembles what stands in the editor: the same moment under it, where it is a program.
    async assemble() {
        clearTimeout(this.typing);
        clearTimeout(this.searching);
        if (!this.assembler.isThere) return;
        const begun = performance.now(), source = bytesOf(this.editor.text), { rom, listing, fault } = this.assembler.assemble(source);
        const milliseconds = performance.now() - begun;
        if (fault) {
            this.refused(fault);
            return;
        }
        this.listing = new Listing(textOf(listing), this.editor.lines);
        this.listingText = listing;
        this.editor.say(this.listing);
        this.panes.all.stops.renew();
        at('problem').hidden = true;
        const told = `${counted(this.listing.size)} of 16,384 bytes, assembled in ${milliseconds.toFixed(1)} ms`;
        at('assembled').textContent = told;
        const roms = this.romsOf(rom);
        if (!equal(roms, this.session.roms)) await this.replays(roms, told);
        else {
            this.whole ??= this.listing;
            this.told();
        }
    }

    // Plays what was played again under another ROM block. Until that is done a preview is shown, unless a name has moved: what the old program has
    // left in RAM may then point to where things were.
    async replays(roms, told) {
        const begun = performance.now(), { session, listing } = this;
        const isDone = await session.replace(roms, (frame, all) => this.deck.progress(frame, all), this.whole?.isInPlace(listing) ?? false);
        if (!isDone) return;
        this.deck.progress(null);
        this.whole = listing;
        const { run, wasRight } = session, verdict = wasRight === null ? '' : wasRight ? ', as previewed' : ', not as previewed';
        at('assembled').textContent = `${told} · the same moment in ${Math.round(performance.now() - begun)} ms (${counted(run.frame)} frames${verdict})`;
        if (!this.loop.isPlaying && run.canGo && this.wasStopped) this.deck.play();
        this.wasStopped = false;
    }

    // Tells a fault, with its line and its likely cause; what played before goes on.
    refused({ code, line }) {
        this.wasStopped = this.session.run.stop !== null;
        this.editor.say(null, line);
        this.fault = { code, line };
        at('problem').hidden = false;
        at('problem-code').textContent = `${code}  ${this.placeOf(line)}`;
        at('problem-meaning').textContent = meaningOf(code);
        at('problem-causes').replaceChildren(...causesOf(code, bytesOf(this.editor.text), line).map((cause) => made('li', {}, this.placed(cause))));
        at('problem-others').replaceChildren();
        at('assembled').textContent = 'refused; the program before it goes on';
        this.searching = setTimeout(() => this.tellsOthers(), SEARCHED);
    }

    // A line in words: of a source that was translated, the first file's line.
    placeOf(line) {
        const [file, number] = this.isChanged ? [] : this.places[line - 1] ?? [];
        return file ? `line ${number} of ${file.split('/').at(-1)}` : `line ${counted(line)}`;
    }

    // A sentence with its lines in words.
    placed(sentence) {
        return this.places.length > 0 ? sentence.replace(/\bline (\d+)\b/g, (_, line) => this.placeOf(Number(line))) : sentence;
    }

    // Tells why the source on the disk isn't translated; what played before goes on.
    untranslated(told) {
        const [, place, why] = /^(.*?:\d+): (.*)$/.exec(told) ?? [null, 'refused', told];
        clearTimeout(this.searching);
        this.editor.say(null);
        this.fault = null;
        at('problem').hidden = false;
        at('problem-code').textContent = place.split('/').at(-1);
        at('problem-meaning').textContent = why;
        at('problem-causes').replaceChildren();
        at('problem-others').replaceChildren();
        at('assembled').textContent = 'refused; the program before it goes on';
    }

    // Tells the faults that come after the first one, and marks their lines.
    tellsOthers() {
        if (this.editor.lines.length > LONGEST) return;
        const [, ...others] = faultsOf(this.assembler, bytesOf(this.editor.text));
        this.editor.marks(others.map(({ line }) => line));
        at('problem-others').replaceChildren(...others.map(({ code, line, causes }) => made('li', {}, link(`also: ${this.placeOf(line)}`, 'Go to the line',
            () => this.editor.visit(line)), `  ${code}  ${this.placed(causes[0] ?? meaningOf(code))}`)));
    }

    // Begins from a source, with what is held, from power-on.
    async begin(name, text, masks = [], { isDemo = false, rom = null } = {}) {
        this.name = name;
        at('name').textContent = `${name}.asm`;
        document.title = `${name} · Studio`;
        this.isChanged = false;
        this.whole = null;
        this.editor.text = text;
        this.panes.all.stops.clear();
        const made_ = rom ? { rom } : this.assembler.isThere ? this.assembler.assemble(bytesOf(text)) : { rom: new Uint8Array(PROGRAM) };
        if (made_.rom) this.session.begin(this.romsOf(made_.rom), masks, { isDemo });
        else this.session.begin(this.session.roms, masks, { isDemo });
        await this.assemble();
        this.deck.play();
        this.stands(1);
    }

    // Tells in which line the caret is.
    stands(line) {
        at('caret').textContent = `line ${counted(line)} of ${counted(this.editor.lines.length)}`;
    }

    // ---- Looking in

    // What the processor would read at addresses; but at the ports of the voices and of the sprites' places, where it would read inputs, what the
    // board keeps there.
    bytesAt(block, address, count) {
        const bytes = Array.from(this.session.run.board.peek(address, count));
        return bytes.map((byte, more) => (isPort(address + more) ? block[placeOf(address + more)] ?? byte : byte));
    }

    // Asks who wrote a byte.
    asks(address) {
        if (this.loop.isPlaying) this.deck.pause();
        this.panes.open('who');
        this.panes.all.who.ask(address);
    }

    // Goes to a moment, and rests there.
    async visits(frame, inside) {
        this.deck.pause();
        await this.session.go(frame, inside);
    }

    // Runs to a line of the source: on, or back where one wants so.
    async runsTo(line, isBack = false) {
        const address = this.addressOf(line);
        if (address === null) tell('', 'No line from there on has bytes.');
        else await this.deck.runsTo(address, isBack);
    }

    // A line's number was clicked on: runs to it, or sets a breakpoint there and takes it away.
    picks(line, isRun) {
        if (isRun) this.runsTo(line);
        else if (this.addressOf(line) === null) tell('', 'No line from there on has bytes.');
        else this.panes.all.stops.toggle(line);
    }

    // The address of a line, or of the next one with bytes, by the last listing; nothing where there is none.
    addressOf(line) {
        const { editor } = this;
        for (let at = line; at <= editor.lines.length; at++) if (editor.rowOf(at)) return editor.rowOf(at).address;
        return null;
    }

    // The address that a name stands for, or hexadecimal digits; nothing where they do for none.
    addressIn(text) {
        const named = this.listing?.symbols.get(text), digits = /^0?([0-9A-Fa-f]{1,4})H?$/.exec(text);
        const address = named ?? (digits ? parseInt(digits[1], 16) : null);
        return address !== null && address >= 0 && address <= 0xffff ? address : null;
    }

    // The instruction at an address.
    textAt(address) {
        return this.assembler.disassembled(this.session.run.board.peek(address, 4), address).text;
    }

    // The addresses in the ROM at which an instruction may return.
    get returns() {
        const { roms } = this.session.run;
        if (this.returning?.roms !== roms) {
            const isReturn = (_, address) => this.assembler.disassembled(roms.subarray(address, address + 4), address).text.startsWith('RET');
            this.returning = { roms, addresses: [...Array(PROGRAM).keys()].filter(isReturn) };
        }
        return this.returning.addresses;
    }

    // Where the run is, in words.
    when() {
        const { run } = this.session, { ticks } = clocksOf(run.board), { tick, line } = placeInFrame(ticks);
        return { frame: run.frame, tick, line, isInside: run.inside > 0 };
    }
}

async function open() {
    const files = await filesOfPage();
    if (!canRun(files['pac_host.wasm'])) throw new Fault('Too old', "this browser can't run the board, which needs WebAssembly's vectors");
    const module = await WebAssembly.compile(files['pac_host.wasm']), assembler = await Assembler.of(files['pac_source.wasm']);
    const studio = new Studio(files, module, assembler);
    window.studio = studio;
    at('examples').append(...Object.entries(EXAMPLES).map(([name, text]) => made('option', { value: name }, text)));
    const example = (name, isDemo) => studio.begin(name, textOf(files[`${name}.asm`]), masksOf(textOf(files[`${name}.script`])),
        { isDemo, rom: files[`${name}.rom`] });
    at('examples').addEventListener('change', ({ target }) => {
        studio.set = files.set;
        example(target.value, true);
    });
    try {
        const linked = await fromFragment(location.hash);
        if (linked) return await studio.begin('linked', linked.source, linked.script ? masksOf(linked.script) : []);
    } catch (error) {
        refuse(error);
    }
    if (studio.live.isThere) return studio.live.follow();
    return example('starfall', true);
}

open().catch((error) => {
    tell(error.name === 'Error' ? '' : error.name, error.message, true);
    console.error(error);
});
