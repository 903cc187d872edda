// What the studio plays: a run that is live, or played again, or gone through; and the same moment of it under new code.

import { Board, FRAME_SAMPLES } from '../board.js';
import { breath, equal, sliced } from './bytes.js';
import { goesTo } from './look.js';
import { beside, previewOf, Run } from './run.js';
import { LONGEST, Tape } from './tape.js';

const SILENCE = new Int16Array(FRAME_SAMPLES);
const LONG = 900; // frames from which on what is played again is previewed: less is done in a blink

export class Session {
    // `module` is the compiled one; `told` is called where something has changed that is to be shown.
    constructor(module, roms, controls, told) {
        const board = () => new Board(new WebAssembly.Instance(module, {}).exports, roms);
        Object.assign(this, { controls, told, board, spare: [board(), board()], easel: board(), probe: board(), scouts: {} });
        this.run = new Run(board(), roms, new Tape());
        this.isDemo = false;
        this.wish = 0; // counts what was wished to go to, so that the last one calls the others off
        this.edit = 0; // and the ROM blocks
        this.target = null; // the moment that is gone to
        this.coming = null; // the run under the next ROM block, while it's played up to the moment of this one
        this.whole = null; // the run before it, while a preview is shown in its place
        this.wasRight = null; // whether the last preview was what all of it came to; nothing where none was shown
        this.isBusy = false;
        this.stops = null; // where the run rests; nothing where nowhere
        this.rested = null; // the last moment at which it did
    }

    // The ROM block of the last program, under which all is played or will be.
    get roms() {
        return (this.coming ?? this.run).roms;
    }

    // Whether what is shown is a preview of what is played again.
    get isPreview() {
        return this.whole !== null;
    }

    get tape() {
        return this.run.tape;
    }

    // Whether what is played next is on the tape already.
    get isReplay() {
        return this.run.frame < this.tape.length;
    }

    // Begins anew: with a ROM block, a tape, and from a state where one is given.
    begin(roms, masks = [], { isDemo = false, start = null } = {}) {
        this.wish++;
        this.callsOff();
        Object.assign(this, { target: null, isBusy: false });
        this.run = new Run(this.run.board, roms, new Tape(masks), start);
        this.isDemo = isDemo;
        this.told();
    }

    // Runs to the end of a frame: the samples; nothing where the run can't go on, or rests at a stop.
    advance() {
        const { run, tape } = this;
        if (this.isDemo && run.frame >= tape.length) run.go(0);
        if (!run.canGo || run.frame >= LONGEST) return null;
        if (run.frame >= tape.length) tape.add(this.controls.held);
        const samples = this.stops ? this.toStop() : run.next();
        if (!run.canGo) this.told();
        return run.canGo ? samples : null;
    }

    // Runs to the end of a frame: the samples; nothing where it comes to a stop before.
    toStop() {
        const { run } = this, pieces = [];
        const met = goesTo(run, this.stops, (samples) => pieces.push(samples));
        if (met) {
            this.rests(met);
            return null;
        }
        return pieces.length === 1 ? pieces[0] : Int16Array.from(pieces.flatMap((some) => [...some]));
    }

    // Keeps this moment as one at a stop.
    rests(met) {
        this.rested = { frame: this.run.frame, inside: this.run.inside, met };
    }

    // Whether the run rests at a stop.
    get isAtStop() {
        return this.rested?.frame === this.run.frame && this.rested.inside === this.run.inside;
    }

    // Goes to where a scout has gone to.
    takes(scout) {
        this.run.takes(scout);
        while (this.tape.length < scout.frame + (scout.inside > 0 ? 1 : 0)) this.tape.add(0);
        this.told();
    }

    // Somebody has pressed or let go: from here on the tape has what they hold.
    take() {
        this.isDemo = false;
        if (this.run.frame < this.tape.length) {
            const { frame, inside } = this.run, from = frame + (inside > 0 ? 1 : 0);
            this.tape.cut(from);
            for (const run of [this.run, this.coming, this.whole]) run?.forget(from);
        }
    }

    // Goes to a moment; the next one that is wished for calls it off. Whether it came there.
    async go(frame, inside = 0) {
        this.target = { frame, inside };
        const came = await this.does((run) => run.to(frame, inside));
        if (came !== undefined) this.target = null;
        return came !== undefined;
    }

    // Does steps on the run, in slices: what they give, or undefined where another wish has called them off.
    async does(steps) {
        const wish = ++this.wish;
        this.isBusy = true;
        const value = await sliced(steps(this.run), () => wish === this.wish);
        if (wish !== this.wish) return undefined;
        this.isBusy = false;
        this.told();
        return value;
    }

    // The steps by which another run comes to the moment of this one, wherever that goes meanwhile.
    *following(run, progress) {
        for (;;) {
            const { frame, inside } = this.run;
            for (const at of run.to(frame, inside)) {
                progress(at, frame);
                yield at;
            }
            if (!run.canGo || frame === this.run.frame && inside === this.run.inside) return run;
            yield frame;
        }
    }

    // Plays what was played again under another ROM block, up to the moment that is shown, and takes its place; `progress` hears of each slice.
    // Meanwhile the old one goes on, or a preview where one is wanted and there is much to play, and may be gone through. Whether it came there:
    // the next replacement calls it off.
    async replace(roms, progress = () => undefined, isPreviewed = false) {
        this.callsOff();
        const { edit, run: old } = this;
        if (equal(roms, old.roms)) return this.shows(old);
        this.coming = new Run(this.spare.pop(), roms, old.tape, old.start);
        if (isPreviewed && old.frame >= LONG) this.previews(roms);
        const run = await sliced(this.following(this.coming, progress), () => edit === this.edit);
        if (run === undefined || edit !== this.edit) return false;
        this.wasRight = this.isPreview ? equal(run.board.block, this.run.board.block) : null;
        for (const { board } of new Set([old, this.run])) this.spare.push(board);
        Object.assign(this, { coming: null, whole: null });
        return this.shows(run);
    }

    // Waits until what is shown is no preview any more.
    async isWhole() {
        while (this.isPreview) await breath();
    }

    // Shows another run in place of this one.
    shows(run) {
        this.run = run;
        this.wish++; // what went through the old one ends
        this.isBusy = false;
        this.told();
        if (this.target) this.go(this.target.frame, this.target.inside);
        return true;
    }

    // Shows a preview under a ROM block, unless the board stops in it.
    previews(roms) {
        const preview = previewOf(this.run, this.spare.pop(), roms);
        if (!preview.canGo) {
            this.spare.push(preview.board);
            return;
        }
        this.whole = this.run;
        this.shows(preview);
    }

    // Calls off what is played again: what was played whole before it is there once more, at the same moment.
    callsOff() {
        this.edit++;
        this.wasRight = null;
        if (this.coming) this.spare.push(this.coming.board);
        this.coming = null;
        if (!this.isPreview) return;
        const { run, whole } = this;
        this.wish++;
        this.spare.push(run.board);
        this.run = whole.go(run.frame, run.inside);
        Object.assign(this, { whole: null, isBusy: false });
    }

    // The run once more, on a board that is kept for a purpose: to look around without moving it.
    scout(purpose) {
        this.scouts[purpose] ??= this.board();
        return beside(this.run, this.scouts[purpose]);
    }

    // The picture as it is now.
    draw() {
        return this.run.board.draw();
    }

    get silence() {
        return SILENCE;
    }
}
