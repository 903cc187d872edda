// The page: a board that is played with the keyboard, shown on a canvas and heard.
//
// The sound leads. A frame is run whenever fewer than four frames' samples wait to be heard, so 60.6 of them a second, whatever the screen's
// rate is; each time the screen asks, the last picture is shown.

import { Board, FRAME_MICROSECONDS, FRAME_SAMPLES, HEIGHT, INPUTS, SAMPLE_RATE, WIDTH, canRun } from './board.js';

const AHEAD = 4 * FRAME_SAMPLES; // samples that wait to be heard
const MOST = 8; // frames that are run for one picture on the screen, where it was late
const SECOND = 61; // frames
const KEPT = 60; // snapshots, one a second
const KEYS = {
    ArrowUp: 'P1_UP', ArrowLeft: 'P1_LEFT', ArrowRight: 'P1_RIGHT', ArrowDown: 'P1_DOWN',
    KeyR: 'P2_UP', KeyD: 'P2_LEFT', KeyG: 'P2_RIGHT', KeyF: 'P2_DOWN',
    Digit1: 'START1', Digit2: 'START2', Digit5: 'COIN1', Digit6: 'COIN2', Digit7: 'CREDIT',
};

const at = (id) => document.getElementById(id);

// A board that is shown and heard.
class Host {
    constructor(board) {
        this.board = board;
        this.held = 0;
        this.frames = 0; // that were run
        this.kept = []; // snapshots, the oldest first
        this.sent = 0; // samples that went to the sound's end, and
        this.taken = 0; // those that were heard
        this.dry = 0; // samples that came too late
        this.isPlaying = false;
        this.context = at('picture').getContext('2d');
        this.show();
    }

    // Runs a frame with what is held: its samples.
    frame() {
        if (this.frames++ % SECOND === 0) this.kept = [...this.kept.slice(1 - KEPT), this.board.block];
        this.board.hold(this.held);
        const { samples, stop, pc } = this.board.run(FRAME_MICROSECONDS);
        if (stop !== 0) this.stop(`The board stopped at ${pc.toString(16).toUpperCase().padStart(4, '0')}H.`);
        return samples;
    }

    // Shows the picture as it stands.
    show() {
        this.context.putImageData(new ImageData(this.board.draw(), WIDTH, HEIGHT), 0, 0);
    }

    // Goes back to the last snapshot but one: a second or two. A board that had stopped goes on from there.
    back() {
        if (this.kept.length > 1) this.kept.pop();
        if (this.kept.length > 0) this.board.block = this.kept.at(-1);
        this.frames = 1;
        if (this.audio !== undefined && !this.isPlaying) this.begin();
    }

    // Plays on.
    begin() {
        at('told').textContent = '';
        this.isPlaying = true;
        this.turn();
    }

    // Begins to play, once somebody has touched the page: a browser lets no page sound before.
    async play() {
        if (this.audio !== undefined) return;
        at('told').textContent = '';
        this.audio = new AudioContext({ sampleRate: SAMPLE_RATE });
        await this.audio.audioWorklet.addModule('sound.js');
        this.sound = new AudioWorkletNode(this.audio, 'sound', { outputChannelCount: [1] });
        this.sound.port.onmessage = ({ data }) => Object.assign(this, data);
        this.sound.connect(this.audio.destination);
        await this.audio.resume();
        this.begin();
    }

    // Runs what is due, shows it, and comes again with the screen's next picture.
    turn() {
        if (!this.isPlaying) return;
        for (let frames = 0; this.isPlaying && this.sent - this.taken < AHEAD && frames < MOST; frames++) {
            const samples = this.frame();
            this.sent += samples.length;
            this.sound.port.postMessage(samples);
        }
        this.show();
        requestAnimationFrame(() => this.turn());
    }

    // Stops playing, and says why.
    stop(why) {
        this.isPlaying = false;
        at('told').textContent = why;
    }

    // A key goes down or up.
    key(event, isDown) {
        const mask = INPUTS[KEYS[event.code]];
        if (mask === undefined && event.code !== 'Backspace') return;
        event.preventDefault();
        if (mask !== undefined) this.held = isDown ? this.held | mask : this.held & ~mask;
        else if (isDown) this.back();
    }
}

// The bytes at an address.
async function bytesOf(address) {
    const answer = await fetch(address);
    if (!answer.ok) throw new Error(`${address} isn't there`);
    return new Uint8Array(await answer.arrayBuffer());
}

// Puts a ROM block into a new board, in the place of the one before.
async function begin(module, roms) {
    const board = await Board.powerOn(module, roms);
    window.host?.stop('');
    await window.host?.audio?.close();
    window.host = new Host(board);
    at('told').textContent = 'Click or press a key.';
}

// Tells what went wrong.
function tell(error) {
    at('told').textContent = error.message;
}

async function main() {
    const module = await bytesOf('../out/pac_host.wasm');
    if (!canRun(module)) throw new Error("This browser can't run the module, which has WebAssembly's vectors.");
    at('roms').addEventListener('change', async ({ target }) => {
        begin(module, new Uint8Array(await target.files[0].arrayBuffer())).catch(tell);
    });
    for (const [name, isDown] of [['keydown', true], ['keyup', false]])
        addEventListener(name, (event) => window.host?.key(event, isDown));
    for (const name of ['keydown', 'click']) addEventListener(name, () => window.host?.play().catch(tell));
    addEventListener('blur', () => { if (window.host) window.host.held = 0; });
    await begin(module, await bytesOf(new URLSearchParams(location.search).get('roms') ?? '../out/starfall.roms'));
}

main().catch(tell);
