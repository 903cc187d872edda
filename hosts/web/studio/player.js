// What plays a board on a page: the picture's canvas, the sound, the keys, and the loop. The studio and a published game share it.
//
// The sound leads: a frame is run whenever fewer than four frames' samples wait to be heard. Where no sound goes, since a page may sound only
// once somebody has touched it, or since it's turned off, the clock leads.

import { FRAME_MICROSECONDS, FRAME_SAMPLES, HEIGHT, INPUTS, SAMPLE_RATE, WIDTH } from '../board.js';

const AHEAD = 4 * FRAME_SAMPLES; // samples that wait to be heard
const MOST = 8; // frames that are run for one picture on the screen, where it was late
const KEYS = {
    ArrowUp: 'P1_UP', ArrowLeft: 'P1_LEFT', ArrowRight: 'P1_RIGHT', ArrowDown: 'P1_DOWN',
    KeyR: 'P2_UP', KeyD: 'P2_LEFT', KeyG: 'P2_RIGHT', KeyF: 'P2_DOWN',
    Digit1: 'START1', Digit2: 'START2', Digit5: 'COIN1', Digit6: 'COIN2', Digit7: 'CREDIT',
};
const BUTTONS = { 0: 'START1', 8: 'COIN1', 9: 'START1', 12: 'P1_UP', 13: 'P1_DOWN', 14: 'P1_LEFT', 15: 'P1_RIGHT' }; // of a standard gamepad
const TILTED = 0.5; // of an axis
const STALLED = 300; // milliseconds in which no sample is taken
const AGAIN = 2000; // milliseconds between two tries to wake the sound

// The picture on a canvas.
export class Screen {
    constructor(canvas) {
        this.context = canvas.getContext('2d', { alpha: false });
        this.image = this.context.createImageData(WIDTH, HEIGHT);
    }

    show(rgba) {
        this.image.data.set(rgba);
        this.context.putImageData(this.image, 0, 0);
    }
}

// The sound.
export class Speaker {
    constructor(workletText) {
        Object.assign(this, { workletText, sent: 0, taken: 0, dry: 0, isMuted: false, isStalled: false, context: null, woken: 0, seen: 0,
            seenAt: 0 });
    }

    // Begins to sound; a browser lets no page do so before somebody has touched it.
    async begin() {
        if (this.context || this.isMuted) return;
        this.context = new AudioContext({ sampleRate: SAMPLE_RATE });
        await this.context.audioWorklet.addModule(`data:text/javascript;base64,${btoa(this.workletText)}`);
        this.node = new AudioWorkletNode(this.context, 'sound', { outputChannelCount: [1] });
        this.node.port.onmessage = ({ data }) => Object.assign(this, data);
        this.node.connect(this.context.destination);
        this.context.resume(); // (which isn't done before somebody touches the page)
    }

    // Whether it takes samples, so that they lead.
    get isOn() {
        return !this.isMuted && this.node !== undefined && this.context.state === 'running';
    }

    // Whether it sets the pace.
    get leads() {
        return this.isOn && !this.isStalled;
    }

    get waiting() {
        return this.sent - this.taken;
    }

    push(samples) {
        if (!this.isOn || this.waiting > 2 * AHEAD) return;
        this.sent += samples.length;
        this.node.port.postMessage(samples);
    }

    // Holds still, or goes on.
    rest(isResting) {
        if (this.context && this.context.state !== 'closed') (isResting || this.isMuted ? this.context.suspend() : this.context.resume());
    }

    // Looks, while a game is played, whether samples are taken: where they aren't, the clock has to lead, and the sound is woken now and then. So
    // it is where a browser has put it to rest, or has lost the device for a while.
    look(now) {
        if (!this.context || this.isMuted || this.taken !== this.seen) Object.assign(this, { seen: this.taken, seenAt: now });
        this.isStalled = now - this.seenAt > STALLED;
        if (!this.isStalled || now - this.woken < AGAIN) return;
        this.woken = now;
        this.context.suspend().then(() => !this.isMuted && this.context.resume()).catch(() => undefined);
    }

    mute(isMuted) {
        this.isMuted = isMuted;
        if (isMuted) this.rest(true);
        else if (!this.context) this.begin().catch(() => undefined);
    }
}

// Whether something on the page that one writes in or turns has the keys.
function isTyping(target) {
    return target instanceof Element && target.closest('textarea, input, select, [data-keys]') !== null;
}

// What is held: by keys, by gamepads and by fingers. `changed` is called where somebody presses or lets go.
export class Controls {
    constructor(changed) {
        Object.assign(this, { changed, keys: 0, fingers: 0, pads: 0 });
        addEventListener('keydown', (event) => this.key(event, true));
        addEventListener('keyup', (event) => this.key(event, false));
        addEventListener('blur', () => this.release());
    }

    get held() {
        return this.keys | this.fingers | this.pads;
    }

    // Lets all go.
    release() {
        if (this.keys | this.fingers) this.set({ keys: 0, fingers: 0 });
    }

    set(parts) {
        const before = this.held;
        Object.assign(this, parts);
        if (this.held !== before) this.changed(before);
    }

    key(event, isDown) {
        const mask = INPUTS[KEYS[event.code]];
        if (mask === undefined || isDown && (isTyping(event.target) || event.ctrlKey || event.metaKey || event.altKey)) return;
        if (isDown) event.preventDefault();
        this.set({ keys: isDown ? this.keys | mask : this.keys & ~mask });
    }

    // Looks at the gamepads.
    poll() {
        let mask = 0;
        for (const pad of navigator.getGamepads?.() ?? []) {
            if (!pad?.connected) continue;
            for (const [at, name] of Object.entries(BUTTONS)) if (pad.buttons[at]?.pressed) mask |= INPUTS[name];
            const [x = 0, y = 0] = pad.axes;
            if (Math.abs(x) > TILTED) mask |= x < 0 ? INPUTS.P1_LEFT : INPUTS.P1_RIGHT;
            if (Math.abs(y) > TILTED) mask |= y < 0 ? INPUTS.P1_UP : INPUTS.P1_DOWN;
        }
        this.set({ pads: mask });
    }

    // Makes an element a joystick for a finger: by where on it the finger is.
    joystick(element) {
        const all = INPUTS.P1_LEFT | INPUTS.P1_RIGHT | INPUTS.P1_UP | INPUTS.P1_DOWN;
        const at = (event) => {
            const { left, top, width, height } = element.getBoundingClientRect();
            const x = (event.clientX - left) / width - 0.5, y = (event.clientY - top) / height - 0.5;
            const across = Math.abs(x) < 0.12 ? 0 : x < 0 ? INPUTS.P1_LEFT : INPUTS.P1_RIGHT;
            const along = Math.abs(y) < 0.12 ? 0 : y < 0 ? INPUTS.P1_UP : INPUTS.P1_DOWN;
            this.set({ fingers: this.fingers & ~all | across | along });
            event.preventDefault();
        };
        element.addEventListener('pointerdown', (event) => {
            element.setPointerCapture(event.pointerId);
            at(event);
        });
        element.addEventListener('pointermove', (event) => {
            if (element.hasPointerCapture(event.pointerId)) at(event);
        });
        for (const name of ['pointerup', 'pointercancel']) element.addEventListener(name, () => this.set({ fingers: this.fingers & ~all }));
    }

    // Makes a button hold an input as long as it's pressed.
    button(element, name) {
        const set = (isDown) => (event) => {
            this.set({ fingers: isDown ? this.fingers | INPUTS[name] : this.fingers & ~INPUTS[name] });
            event.preventDefault();
        };
        element.addEventListener('pointerdown', set(true));
        for (const up of ['pointerup', 'pointercancel', 'pointerleave']) element.addEventListener(up, set(false));
    }
}

// The loop: it asks a source for what is due, and lets it show that. `source.advance()` runs a frame and gives its samples, or nothing where
// it can't go on.
export class Loop {
    constructor(source, speaker, controls) {
        Object.assign(this, { source, speaker, controls, isPlaying: false, frames: 0 });
        document.addEventListener('visibilitychange', () => this.isPlaying && speaker.rest(document.hidden));
    }

    play() {
        if (this.isPlaying) return;
        this.isPlaying = true;
        this.since = this.speaker.seenAt = performance.now();
        this.speaker.rest(false);
        requestAnimationFrame(() => this.turn());
    }

    pause() {
        this.isPlaying = false;
        this.speaker.rest(true);
    }

    // Whether a frame is due.
    isDue(now) {
        if (this.speaker.leads) {
            this.since = now;
            return this.speaker.waiting < AHEAD;
        }
        if (now - this.since < FRAME_MICROSECONDS / 1000) return false;
        this.since = Math.max(this.since + FRAME_MICROSECONDS / 1000, now - MOST * FRAME_MICROSECONDS / 1000);
        return true;
    }

    turn() {
        if (!this.isPlaying) return;
        this.controls.poll();
        const now = performance.now();
        this.speaker.look(now);
        let frames = 0;
        for (; this.isPlaying && frames < MOST && this.isDue(now); frames++) {
            const samples = this.source.advance();
            if (samples === null) break;
            this.speaker.push(samples);
            this.frames++;
        }
        if (frames > 0) this.source.show();
        if (this.isPlaying) requestAnimationFrame(() => this.turn());
    }
}
