// The text of a box: its name where that fits, else the longest of its shorter forms that does, else the shortest, cut with an ellipsis.

import { firstPlace } from './bisect.js';
import { contextOf } from './elements.js';
import { beginning, visible } from './names.js';

export const FONT_FAMILY = 'ui-monospace, "DejaVu Sans Mono", Menlo, Consolas, monospace';
export const FONT = `12px ${FONT_FAMILY}`;
export const PAD = 4;

// A line is no longer than so many characters.
const LONGEST = 1000;

/**
 * What is shown of a name or of a shorter form, and whether each of its characters is as wide as a 0.
 * @typedef {{ text: string, isPlain: boolean, isCut: boolean }} Shown
 */

export class Lettering {
    // `formsOf` gives a name with its shorter forms, from the longest to the shortest.
    /**
     * @param {string[]} names
     * @param {(name: string) => string[]} formsOf
     */
    constructor(names, formsOf) {
        this.names = names;
        this.formsOf = formsOf;
        this.context = contextOf(document.createElement('canvas'));
        this.context.font = FONT;
        this.letter = this.context.measureText('0').width;
        /** @type {Map<number, Shown[]>} */
        this.shown = new Map();
    }

    // The text for a box of that width. Behind the whole name stands what is added, where there is room for it whole.
    /** @type {(name: number, added: string, width: number) => string} */
    textFor(name, added, width) {
        const room = width - 2 * PAD;
        if (room < 2 * this.letter) return '';
        const forms = this.shownOf(name);
        const chosen = firstPlace(0, forms.length, (form) => this.hasRoom(forms[form], room));
        if (chosen === forms.length) return this.cut(forms[chosen - 1], room);
        const { text } = forms[chosen];
        const whole = `${text} ${added}`;
        return chosen === 0 && added && this.fits(whole, room) ? whole : text;
    }

    /** @type {(name: number) => Shown[]} */
    shownOf(name) {
        const known = this.shown.get(name);
        if (known) return known;
        const shown = this.formsOf(this.names[name]).map((form) => {
            const text = visible(beginning(form, LONGEST));
            return { text, isPlain: /^[ -~]*$/.test(text), isCut: form.length > LONGEST };
        });
        this.shown.set(name, shown);
        return shown;
    }

    /** @type {(form: Shown, room: number) => boolean} */
    hasRoom({ text, isPlain, isCut }, room) {
        return !isCut && (isPlain ? text.length <= Math.floor(room / this.letter) : this.fits(text, room));
    }

    /** @type {(text: string, room: number) => boolean} */
    fits(text, room) {
        return this.context.measureText(text).width <= room;
    }

    // As much of a form as has room, with an ellipsis.
    /** @type {(form: Shown, room: number) => string} */
    cut({ text, isPlain }, room) {
        const kept = isPlain ? text.slice(0, Math.floor(room / this.letter) - 1) : this.cutTo(text, room);
        return kept === '' ? '' : `${kept}…`;
    }

    // The most characters of the text that fit into the room with an ellipsis.
    /** @type {(text: string, room: number) => string} */
    cutTo(text, room) {
        const characters = Array.from(text.slice(0, Math.ceil((4 * room) / this.letter)));
        const count = firstPlace(0, characters.length, (each) => !this.fits(`${characters.slice(0, each + 1).join('')}…`, room));
        return characters.slice(0, count).join('');
    }
}
