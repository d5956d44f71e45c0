// The picture as SVG text. All that comes from the data is escaped.

import { FONT_FAMILY } from './lettering.js';
import { shortened } from './names.js';
import { centreText, summaryText } from './notices.js';
import { paintScene } from './scene.js';

/** @typedef {import('./scene.js').Scene} Scene */

/** @type {Record<string, string>} */
const ESCAPES = { '&': '&amp;', '<': '&lt;', '>': '&gt;', '"': '&quot;', "'": '&apos;' };

/** @type {(text: string) => string} */
function escapedText(text) {
    return text.replace(/[&<>"']/g, (character) => ESCAPES[character]);
}

/** @type {(number: number) => string} */
function short(number) {
    return String(Math.round(number * 100) / 100);
}

// On paper nothing has a title.
class SvgPainter {
    /** @param {boolean} isPaper */
    constructor(isPaper) {
        this.isPaper = isPaper;
        /** @type {string[]} */
        this.parts = [];
    }

    /** @type {(left: number, top: number, width: number, height: number, fill: string) => void} */
    rectangle(left, top, width, height, fill) {
        const area = `x="${short(left)}" y="${short(top)}" width="${short(width)}" height="${short(height)}"`;
        this.parts.push(`<rect ${area} fill="${fill}"/>`);
    }

    /** @type {(left: number, middle: number, text: string, ink: string) => void} */
    text(left, middle, text, ink) {
        this.parts.push(`<text x="${short(left)}" y="${short(middle + 4)}" fill="${ink}">${escapedText(text)}</text>`);
    }

    /** @type {(left: number, top: number, height: number, colour: string) => void} */
    upright(left, top, height, colour) {
        this.rectangle(Math.round(left), top, 1, height, colour);
    }

    /** @type {(titleOf: () => string, paint: () => void) => void} */
    entitled(titleOf, paint) {
        if (!this.isPaper) this.parts.push(`<g><title>${escapedText(titleOf())}</title>`);
        paint();
        if (!this.isPaper) this.parts.push('</g>');
    }
}

/** @type {(scene: Scene, isPaper: boolean) => string} */
export function svgOf(scene, isPaper) {
    const { page, drawing, width } = scene;
    const height = scene.lanes + scene.height;
    const texts = [shortened(page.title, 1500), centreText(page, drawing), summaryText(page, drawing)];
    const painter = new SvgPainter(isPaper);
    paintScene(painter, scene);
    return [
        `<svg xmlns="http://www.w3.org/2000/svg" width="${width}" height="${height}" viewBox="0 0 ${width} ${height}">`,
        `<title>${escapedText(texts.filter((text) => text !== '').join(' · '))}</title>`,
        `<g font-family="${escapedText(FONT_FAMILY)}" font-size="12" xml:space="preserve">`,
        ...painter.parts,
        '</g>',
        '</svg>',
    ].join('\n');
}
