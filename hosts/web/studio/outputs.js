// What goes out of the studio: files, a link that has the source in it, a film, and the game alone as one page.

import { HEIGHT, WIDTH } from '../board.js';
import { bytesOf, deflated, Fault, inflated, linkable, textOf, unbase64 } from './bytes.js';
import { tell } from './parts.js';
import { payloadOf } from './payload.js';
import { scriptOf } from './tape.js';
import { sourceOf } from './files.js';

const LONGEST = 60_000; // letters of a link
const SOUND_RATE = 128_000, FILM_RATE = 4_000_000; // bits a second
const KINDS = ['video/webm;codecs=vp8,opus', 'video/webm;codecs=vp9,opus', 'video/webm', 'video/mp4']; // the first takes the least time
const SCALE = 2; // of a film's pixels

// A source and what was held as the end of a link.
export async function fragmentOf(source, masks) {
    const text = `#source=${linkable(await deflated(bytesOf(source)))}${masks.length ? `&script=${linkable(await deflated(bytesOf(scriptOf(masks))))}` : ''}`;
    if (text.length > LONGEST) throw new Fault('too long', `the link would have ${text.length} letters; ${LONGEST} are the most`);
    return text;
}

// What the end of a link has in it; nothing where it has no source.
export async function fromFragment(fragment) {
    const parts = new Map(fragment.replace(/^#/, '').split('&').map((part) => part.split(/=(.*)/s)));
    if (!parts.has('source')) return null;
    const unpacked = async (name) => inflated(unbase64(parts.get(name)), undefined, `the link's ${name}`);
    return {
        source: sourceOf({ name: "the link's source", bytes: await unpacked('source') }),
        script: parts.has('script') ? textOf(await unpacked('script')) : null,
    };
}

// A text as it may be between tags.
function escaped(text) {
    return text.replace(/[&<>"']/g, (letter) => `&#${letter.charCodeAt(0)};`);
}

// The game alone as a page: the board, the ROM block and what was played. `poster` is the address of the picture that it shows before it begins.
export async function published(template, name, files, poster, isTurned) {
    const parts = { TITLE: escaped(name), PAYLOAD: await payloadOf(files), STAGE: isTurned ? 'stage turned' : 'stage',
        POSTER: `<img id="poster" class="poster" alt="" src="${poster}">` };
    return template.replace(/@(TITLE|PAYLOAD|STAGE|POSTER)@/g, (_, part) => parts[part]);
}

// A film of a canvas and a sound, by the browser's recorder.
export class Film {
    constructor(canvas, speaker) {
        this.large = document.createElement('canvas');
        Object.assign(this.large, { width: SCALE * WIDTH, height: SCALE * HEIGHT });
        this.canvas = canvas;
        const stream = this.large.captureStream(60);
        if (speaker.leads) {
            this.end = speaker.context.createMediaStreamDestination();
            speaker.node.connect(this.end);
            for (const track of this.end.stream.getAudioTracks()) stream.addTrack(track);
        }
        const kind = KINDS.find((one) => MediaRecorder.isTypeSupported(one));
        this.recorder = new MediaRecorder(stream, { mimeType: kind, videoBitsPerSecond: FILM_RATE, audioBitsPerSecond: SOUND_RATE });
        this.pieces = [];
        this.recorder.onerror = ({ error }) => tell('The film', error?.message ?? 'the recorder has failed', true);
        this.recorder.ondataavailable = ({ data }) => this.pieces.push(data);
        this.recorder.start(1000);
        this.show();
    }

    // Takes the picture as it is now.
    show() {
        const context = this.large.getContext('2d');
        context.imageSmoothingEnabled = false;
        context.drawImage(this.canvas, 0, 0, this.large.width, this.large.height);
    }

    // Ends: the film.
    async stop() {
        const ended = new Promise((then) => { this.recorder.onstop = then; });
        this.recorder.stop();
        await ended;
        return new Blob(this.pieces, { type: this.recorder.mimeType });
    }
}
