// The pane of the voices: what each plays, and how it sounds alone.

import { hex } from './bytes.js';
import { link, made } from './parts.js';
import { soundOf, voicesOf } from './voices.js';

const NOTES = ['C', 'C#', 'D', 'D#', 'E', 'F', 'F#', 'G', 'G#', 'A', 'A#', 'B'];
const REGISTERS = [0x5045, 0x504a, 0x504f]; // waveforms
const VOLUMES = [0x5055, 0x505a, 0x505f], PITCHES = [0x5050, 0x5056, 0x505b];
const LOUDEST = 20160;

// The note nearest to a frequency.
export function noteOf(hertz) {
    if (hertz < 16) return '';
    const key = Math.round(69 + 12 * Math.log2(hertz / 440));
    return `${NOTES[key % 12]}${Math.floor(key / 12) - 1}`;
}

export class VoicesPane {
    constructor(root, studio) {
        Object.assign(this, { root, studio });
        this.rows = [0, 1, 2].map((voice) => {
            const told = made('div', { className: 'mono' }), canvas = made('canvas',
                { width: 480, height: 112, role: 'img', 'aria-label': `How voice ${voice + 1} sounds alone` });
            root.append(made('div', { className: 'voice' }, made('b', {}, `Voice ${voice + 1}`), canvas, told));
            return { told, canvas };
        });
        this.off = made('p', { hidden: true }, 'The sound is switched off: 5001H keeps a 0.');
        root.append(made('p', {}, 'Each curve is five milliseconds of what the board plays with the other two silent.'), this.off);
    }

    show(block) {
        const { session } = this.studio;
        voicesOf(block).forEach(({ waveform, hertz, volume }, voice) => {
            const { told, canvas } = this.rows[voice], who = (address, text) => link(text, 'Who wrote this?', () => this.studio.asks(address));
            told.replaceChildren('wave ', who(REGISTERS[voice], hex(waveform, 1)), '  volume ', who(VOLUMES[voice], String(volume)), '\n',
                who(PITCHES[voice], `${hertz.toFixed(1)} Hz`), hertz && volume ? `  ${noteOf(hertz)}` : '');
            this.curve(canvas, soundOf(session.easel, session.roms, block, voice));
        });
        this.off.hidden = voicesOf.length > 0 && (block[this.studio.latchAt] & 2) !== 0;
    }

    curve(canvas, samples) {
        const context = canvas.getContext('2d'), { width, height } = canvas, loudest = Math.max(1, LOUDEST / 3);
        context.clearRect(0, 0, width, height);
        context.strokeStyle = '#242c38';
        context.strokeRect(0, height / 2, width, 0);
        context.strokeStyle = '#f3c969';
        context.lineWidth = 2;
        context.beginPath();
        samples.forEach((sample, at) => context.lineTo(at * width / samples.length,
            height / 2 - Math.max(-1, Math.min(1, sample / loudest)) * (height / 2 - 6)));
        context.stroke();
    }
}
