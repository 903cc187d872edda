// The pane of pictures: all tiles and sprites in a palette, and all palettes, drawn by the board; and what shows at a pixel.

import { hex } from './bytes.js';
import { link, made } from './parts.js';
import { palettesOf, SHEETS, spritesOf, tilesOf } from './sheets.js';

const NAMES = { tiles: 'Tiles', sprites: 'Sprites', palettes: 'Palettes' };

export class PicturesPane {
    constructor(root, studio) {
        Object.assign(this, { root, studio, palette: 0, isDue: true });
        this.told = made('p', { className: 'told-here' }, 'Click on the picture above to see what shows there.');
        this.choice = made('select', { 'aria-label': 'Palette' }, ...[...Array(32).keys()].map((palette) => made('option', { value: palette },
            String(palette))));
        this.choice.addEventListener('change', () => this.paint(Number(this.choice.value)));
        this.over = made('span', { className: 'dim mono' });
        this.canvases = {};
        root.append(this.told, made('div', { className: 'tools' }, made('label', {}, 'Palette', this.choice), this.over));
        for (const [name, size] of Object.entries(SHEETS)) {
            const canvas = made('canvas', { ...size, className: 'sheet', role: 'img', 'aria-label': NAMES[name] });
            canvas.addEventListener('mousemove', (event) => this.hover(name, canvas, event));
            canvas.addEventListener('click', (event) => name === 'palettes' && this.paint(this.indexAt(name, canvas, event)));
            this.canvases[name] = canvas;
            root.append(made('h2', {}, NAMES[name]), canvas);
        }
    }

    // The number of the tile, sprite or palette at a place of a sheet.
    indexAt(name, canvas, event) {
        const { left, top, width, height } = canvas.getBoundingClientRect();
        const x = Math.floor((event.clientX - left) / width * canvas.width), y = Math.floor((event.clientY - top) / height * canvas.height);
        return name === 'tiles' ? 32 * (y >> 3) + (x >> 3) : name === 'sprites' ? 16 * (y >> 4) + (x >> 4) : 8 * (y >> 3) + (x >> 5);
    }

    hover(name, canvas, event) {
        const index = this.indexAt(name, canvas, event);
        this.over.textContent = `${NAMES[name].slice(0, -1).toLowerCase()} ${index} (${hex(index, 2)}H)`;
    }

    paint(palette) {
        this.palette = palette;
        this.choice.value = palette;
        this.isDue = true;
        this.show();
    }

    show() {
        const { roms, easel } = this.studio.session;
        if (!this.isDue && this.drawn === roms) return;
        this.isDue = false;
        this.drawn = roms;
        for (const [name, draw] of [['tiles', tilesOf], ['sprites', spritesOf]]) this.draw(name, (image) => draw(easel, roms, this.palette, image));
        this.draw('palettes', (image) => palettesOf(easel, roms, image));
    }

    draw(name, paint) {
        const context = this.canvases[name].getContext('2d'), image = context.createImageData(this.canvases[name].width, this.canvases[name].height);
        paint(image);
        context.putImageData(image, 0, 0);
    }

    // Tells what shows at a pixel.
    tell(found, x, y) {
        const who = (address, text) => link(text, 'Who wrote this?', () => this.studio.asks(address));
        const pixel = `Pixel ${x}, ${y}: `;
        if (!found) this.told.replaceChildren(`${pixel}no picture has come yet.`);
        else if (found.kind === 'cell') {
            this.told.replaceChildren(`${pixel}the cell at `, who(found.address, `${hex(found.address)}H`),
                ` shows tile ${found.code} (${hex(found.code, 2)}H) in palette `,
                who(found.colour, `${found.palette}`), '.');
        } else {
            const turned = [found.isMirrored ? 'left and right exchanged' : '', found.isFlipped ? 'top and bottom exchanged'
                : ''].filter(Boolean).join(', ');
            this.told.replaceChildren(`${pixel}sprite ${found.sprite}, `, who(found.address, `${hex(found.address)}H`),
                ` shows shape ${found.code}${turned ? `, ${turned},` : ''} in palette `,
                who(found.address + 1, `${found.palette}`), `, its corner at ${found.x}, ${found.y} by `, who(found.place, `${hex(found.place)}H`),
                `. Under it is tile ${found.under.code} of the cell at `, who(found.under.address, `${hex(found.under.address)}H`), '.');
        }
        if (found) this.paint(found.palette);
    }
}
