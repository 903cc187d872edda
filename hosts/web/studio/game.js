// A published game: the board plays what was recorded until somebody presses a key, and then they play.

import { Board, canRun } from '../board.js';
import { textOf } from './bytes.js';
import { filesOfPage } from './payload.js';
import { Controls, Loop, Screen, Speaker } from './player.js';
import { masksOf } from './tape.js';

const at = (id) => document.getElementById(id);

// The game as the loop wants it.
class Game {
    constructor(board, roms, masks) {
        Object.assign(this, { board, roms, masks, frame: 0, isDemo: true, screen: new Screen(at('picture')) });
        this.controls = new Controls(() => this.take());
    }

    // Somebody plays: from power-on, where the recorded was shown so far.
    take() {
        if (this.isDemo) this.anew();
    }

    anew() {
        this.isDemo = false;
        this.frame = 0;
        this.board.begin(this.roms);
    }

    advance() {
        if (this.isDemo && this.frame > 0 && this.frame >= this.masks.length) {
            this.frame = 0;
            this.board.begin(this.roms);
        }
        this.board.hold(this.isDemo ? this.masks[this.frame] ?? 0 : this.controls.held);
        this.frame++;
        const { samples, stop, pc } = this.board.run(16500);
        if (stop === 0) return samples;
        at('told').textContent = `The board stopped at ${pc.toString(16).toUpperCase().padStart(4, '0')}H.`;
        return null;
    }

    show() {
        this.screen.show(this.board.draw());
        at('poster')?.remove(); // what was to be seen until now
    }
}

async function play() {
    const files = await filesOfPage();
    if (!canRun(files['pac_host.wasm'])) throw new Error("This browser can't run the board, which needs WebAssembly's vectors.");
    const board = await Board.powerOn(files['pac_host.wasm'], files.roms);
    const game = new Game(board, files.roms, files.script ? masksOf(textOf(files.script)) : []);
    const speaker = new Speaker(textOf(files['sound.js'])), loop = new Loop(game, speaker, game.controls);
    window.game = { game, speaker, loop };
    for (const name of ['keydown', 'pointerdown']) addEventListener(name, () => speaker.begin().catch(() => undefined));
    game.controls.joystick(at('stick'));
    game.controls.button(at('coin'), 'COIN1');
    game.controls.button(at('start'), 'START1');
    at('again').addEventListener('click', () => game.anew());
    at('full').addEventListener('click', () => at('stage').requestFullscreen?.());
    at('turn').setAttribute('aria-pressed', at('stage').classList.contains('turned'));
    at('turn').addEventListener('click', ({ target }) => target.setAttribute('aria-pressed', at('stage').classList.toggle('turned')));
    at('sound').addEventListener('click', ({ target }) => {
        speaker.mute(!speaker.isMuted);
        target.setAttribute('aria-pressed', !speaker.isMuted);
    });
    loop.play();
}

play().catch((error) => {
    at('told').textContent = error.message;
});
