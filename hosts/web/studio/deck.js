// The transport under the picture: play and pause, frames and steps on and back, the slider over all that was played; and what the picture tells.

import { counted, hex } from './bytes.js';
import { backOut, backOver, backTo, onTo, stepBack, stepOn, stepOut, stepOver, Stops } from './look.js';
import { at, icon, tell } from './parts.js';
import { shownAt } from './pixel.js';
import { HEIGHT, WIDTH } from '../board.js';

const FAR = 600; // frames after the last one that was played in which a place is looked for
const MODES = { live: 'Live', replay: 'Played again', demo: 'Demo · press a key to play', paused: 'Paused', rested: 'At a breakpoint',
    stopped: 'Stopped', busy: 'Playing it again', preview: 'Preview; replayed' };
const SHORT = 30; // frames below which no progress is told
const WRITE = 1; // what an access was
const PREVIEW = 'The new code goes on from where the old one was a second or two ago. Meanwhile all is played again under it, and takes its place.';

export class Deck {
    constructor(studio) {
        this.studio = studio;
        for (const name of ['back-frame', 'back-step', 'on-step', 'over', 'out', 'on-frame', 'again', 'sound', 'turn', 'full']) icon(at(name), name);
        const clicks = {
            play: () => this.toggle(), 'back-frame': () => this.byFrames(-1), 'on-frame': () => this.byFrames(1),
                'back-step': () => this.byStep(stepBack),
            'on-step': () => this.byStep(stepOn), over: ({ shiftKey }) => this.over(shiftKey), out: ({ shiftKey }) => this.out(shiftKey),
            again: () => this.anew(), sound: () => this.mute(), turn: () => this.turn(),
                full: () => this.full(),
        };
        for (const [name, does] of Object.entries(clicks)) at(name).addEventListener('click', (event) => does(event));
        at('moment').addEventListener('input', ({ target }) => this.slides(Number(target.value)));
        at('moment').addEventListener('change', () => this.slid());
        at('frame').addEventListener('pointerdown', (event) => this.points(event));
        for (const name of ['keydown', 'pointerdown']) addEventListener(name, () => this.studio.speaker.begin().catch(() => undefined));
        addEventListener('keydown', (event) => this.key(event));
        const { controls } = studio;
        controls.joystick(at('stick'));
        controls.button(at('coin'), 'COIN1');
        controls.button(at('start'), 'START1');
        this.label();
    }

    get session() {
        return this.studio.session;
    }

    // ---- Playing

    play() {
        const { session } = this;
        if (!session.run.canGo) return;
        at('cross').hidden = true;
        this.studio.loop.play();
        this.label();
        this.studio.editor.at(null);
    }

    pause() {
        if (!this.studio.loop.isPlaying) return;
        this.studio.loop.pause();
        this.label();
        this.studio.told();
        this.studio.exits.keeps();
    }

    toggle() {
        if (this.studio.loop.isPlaying) this.pause();
        else this.play();
    }

    // The button's picture and name.
    label() {
        const { isPlaying } = this.studio.loop;
        icon(at('play'), isPlaying ? 'pause' : 'play');
        at('play').setAttribute('aria-label', isPlaying ? 'Pause' : 'Play');
        this.show();
    }

    async byFrames(count) {
        this.pause();
        const { session } = this, { frame, inside } = session.run;
        const to = count < 0 && inside > 0 ? frame : Math.max(0, frame + count);
        if (to > frame && frame >= session.tape.length) session.tape.add(this.studio.controls.held);
        await session.go(to);
        this.studio.speaker.rest(true);
    }

    byStep(step) {
        this.pause();
        const { session } = this;
        session.wish++;
        if (session.run.frame >= session.tape.length) session.tape.add(this.studio.controls.held);
        step(session.run);
        this.studio.told();
        this.follows();
    }

    // Brings the line that comes next into view.
    follows() {
        const { editor } = this.studio;
        if (editor.current) editor.show(editor.current);
    }

    anew() {
        const { session } = this;
        session.begin(session.roms, [], { start: null });
        this.play();
    }

    // Goes where the steps of a scout lead, which the run itself isn't moved by; where they lead nowhere, that is told.
    async seeks(steps, missing) {
        this.pause();
        const { session } = this, scout = session.scout('line');
        const isThere = await session.does(() => steps(scout));
        if (isThere === undefined) return false;
        if (isThere) session.takes(scout);
        else tell('', missing);
        this.follows();
        return isThere;
    }

    // The frames that are looked through ahead.
    get ahead() {
        const { run, tape } = this.session;
        return Math.max(0, tape.length - run.frame) + FAR;
    }

    // Runs on, or back, to an address.
    runsTo(address, isBack) {
        const name = this.studio.listing?.nameOf(address) ?? `${hex(address)}H`, stops = new Stops([address]);
        return this.seeks((scout) => (isBack ? backTo(scout, stops) : onTo(scout, stops, this.ahead)),
            isBack ? `The processor wasn't at ${name} before.` : `The processor doesn't come to ${name} within the next ten seconds.`);
    }

    // Runs on, or back, to the next breakpoint.
    async toStop(isBack) {
        const { session } = this, { stops } = session;
        if (!stops) return tell('', 'There is no breakpoint.');
        const met = await this.seeks((scout) => (isBack ? backTo(scout, stops) : onTo(scout, stops, this.ahead)),
            isBack ? 'The processor wasn\'t at a breakpoint before.' : 'The processor comes to no breakpoint within the next ten seconds.');
        if (met) session.rests(met);
        this.show();
    }

    // What the run rests at: a breakpoint before an address, or an access, with the byte of it.
    get resting() {
        const { access, address, before, after } = this.session.rested.met;
        if (access === 0) return MODES.rested;
        return `${hex(address)} ${access === WRITE ? `written, ${hex(before, 2)} → ${hex(after, 2)}` : `read, ${hex(after, 2)}`}`;
    }

    // Steps over a call, or back over one.
    over(isBack) {
        const { studio } = this, text = (address) => studio.textAt(address);
        return this.seeks((scout) => (isBack ? backOver(scout, text) : stepOver(scout, text(scout.board.registers.pc), this.ahead)),
            isBack ? 'There is nothing before this.' : 'That doesn\'t end within the next ten seconds.');
    }

    // Runs to the return from a routine, or back to its call.
    out(isBack) {
        return this.seeks((scout) => (isBack ? backOut(scout) : stepOut(scout, this.studio.returns, this.ahead)),
            isBack ? 'No call of this was found in the two seconds before.' : 'This doesn\'t return within the next ten seconds.');
    }

    // ---- The slider

    slides(frame) {
        if (this.wasPlaying === undefined) this.wasPlaying = this.studio.loop.isPlaying;
        this.studio.loop.pause();
        this.session.isDemo = false;
        this.session.go(frame);
    }

    slid() {
        if (this.wasPlaying) this.play();
        this.wasPlaying = undefined;
        this.label();
    }

    // Shows where it is.
    show() {
        const { session, studio } = this, { run, tape } = session, slider = at('moment');
        if (this.wasPlaying === undefined) {
            slider.max = Math.max(1, tape.length);
            slider.value = run.frame;
        }
        const { frame, tick, line, isInside } = studio.when();
        at('when').textContent = isInside ? `frame ${counted(frame)} + T ${counted(tick)}${line === null ? '' : ` · line ${line}`}`
            : `frame ${counted(frame)} of ${counted(tape.length)} · ${(frame * 0.0165).toFixed(1)} s`;
        slider.setAttribute('aria-valuetext', `frame ${frame} of ${tape.length}`);
        const resting = session.isAtStop ? 'rested' : 'paused';
        const mode = run.stop ? 'stopped' : !studio.loop.isPlaying ? resting : session.isDemo ? 'demo' : session.isReplay ? 'replay' : 'live';
        at('mode').dataset.mode = this.busy ? 'busy' : mode;
        at('mode').textContent = this.busy ?? (mode === 'rested' ? this.resting : MODES[mode]);
        at('mode').title = session.isPreview ? PREVIEW : '';
        at('stage').classList.toggle('preview', session.isPreview);
    }

    // Tells how far it is played again under new code; nothing once that is done.
    progress(frame, all) {
        const text = frame === null || all - frame < SHORT && !this.busy ? null
            : `${this.session.isPreview ? MODES.preview : MODES.busy}: ${Math.floor(100 * frame / Math.max(1, all))}%`;
        if (text === this.busy) return;
        this.busy = text;
        this.show();
    }

    // Tells that the board has stopped, and where.
    stopped(stop, listing) {
        at('stopped').hidden = stop === null;
        if (stop === null) return;
        const line = listing?.lineAt.get(stop.pc), where = `${hex(stop.pc)}H${line ? `, line ${line}` : ''}`;
        at('stopped').querySelector('b').textContent = `The board stopped at ${where}.`;
        at('stopped').querySelector('p').textContent = stop.stop === 1
            ? 'The bytes there are no documented instruction, most often because the program ran into data. Step back to see how it came there.'
            : 'In interrupt mode 0 the vector was no RST.';
    }

    // ---- What else the picture does

    // Where the picture is clicked on: while it rests, what shows there is told; while it plays it takes the keys.
    points(event) {
        at('frame').focus({ preventScroll: true });
        if (this.studio.loop.isPlaying) return;
        const { left, top, width, height } = at('frame').getBoundingClientRect();
        const across = (event.clientX - left) / width, down = (event.clientY - top) / height, isTurned = at('stage').classList.contains('turned');
        const [u, v] = isTurned ? [down, 1 - across] : [across, down];
        const x = Math.min(WIDTH - 1, Math.max(0, Math.floor(u * WIDTH))), y = Math.min(HEIGHT - 1, Math.max(0, Math.floor(v * HEIGHT)));
        this.tellPixel(x, y);
        Object.assign(at('cross').style, { left: `${100 * across}%`, top: `${100 * down}%` });
        at('cross').hidden = false;
    }

    // Tells what shows at a pixel.
    tellPixel(x, y) {
        const found = shownAt(this.session.scout('pixel'), x, y);
        this.studio.panes.open('pictures');
        this.studio.panes.all.pictures.tell(found, x, y);
        return found;
    }

    mute() {
        const { speaker } = this.studio;
        speaker.mute(!speaker.isMuted);
        at('sound').setAttribute('aria-pressed', !speaker.isMuted);
        icon(at('sound'), speaker.isMuted ? 'quiet' : 'sound');
        if (!speaker.isMuted && this.studio.loop.isPlaying) speaker.rest(false);
    }

    turn() {
        at('turn').setAttribute('aria-pressed', at('stage').classList.toggle('turned'));
        at('cross').hidden = true;
    }

    full() {
        if (document.fullscreenElement) document.exitFullscreen();
        else at('stage').requestFullscreen?.().catch(() => undefined);
        at('frame').focus();
    }

    // The keys of the studio itself; those of the board are the controls'.
    key(event) {
        const isInText = event.target.closest?.('textarea, input:not([type=range]), select') !== null, { key } = event;
        const { editor } = this.studio, any = { F6: () => this.over(event.shiftKey), F7: () => this.out(event.shiftKey),
            F8: () => (event.ctrlKey ? this.studio.picks(editor.line, false) : this.toStop(event.shiftKey)),
            F9: () => this.studio.runsTo(editor.line, event.shiftKey), F10: () => this.byStep(event.shiftKey ? stepBack : stepOn) };
        const free = { p: () => this.toggle(), ',': () => this.byFrames(-1), '.': () => this.byFrames(1) };
        const does = any[key] ?? (event.ctrlKey && event.code === 'Space' ? () => this.toggle() : isInText || event.ctrlKey
            || event.metaKey ? undefined : free[key]);
        if (!does) return;
        event.preventDefault();
        does();
    }
}
