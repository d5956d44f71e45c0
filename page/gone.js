// The paths that only the profile before has.

import { pathOf } from './drawing.js';
import { button, element, nameButton, sayAbout, withText } from './elements.js';
import { described, nameText, shortened } from './names.js';
import { exactText, percentText, separated, weightText } from './units.js';

/**
 * @typedef {import('./data.js').Page} Page
 * @typedef {import('./drawing.js').Drawing} Drawing
 */

const GONE_STEP = 100;

// The boxes of the profile before whose paths are gone while their callers are there, the heaviest first: their weights together are what
// vanished. With each all is gone that stands on it: `rest` counts that.
/** @type {(drawing: Drawing) => { boxes: number[], rest: number }} */
export function goneOf(drawing) {
    const boxes = [];
    let rest = 0;
    for (let box = 0; box < drawing.count; ) {
        if (!drawing.other || drawing.other[box] > 0) {
            box++;
            continue;
        }
        boxes.push(box);
        rest += drawing.end[box] - box - 1;
        box = drawing.end[box];
    }
    return { boxes: boxes.sort((one, other) => drawing.weight[other] - drawing.weight[one] || one - other), rest };
}

export class GoneList {
    /**
     * @param {Page} page
     * @param {(box: number) => void} onChoose
     * @param {(text: string) => void} say
     */
    constructor(page, onChoose, say) {
        this.page = page;
        this.onChoose = onChoose;
        this.say = say;
        this.before = page.drawing(0);
        this.list = element('gone-list');
        this.more = button('gone-more');
        const { boxes, rest } = goneOf(this.before);
        this.boxes = boxes;
        element('gone-summary').textContent = this.summary(rest);
        this.more.addEventListener('click', () => this.showMore());
        element('gone').hidden = false;
        this.showMore();
    }

    /** @type {(rest: number) => string} */
    summary(rest) {
        const { before, boxes, page } = this;
        if (boxes.length === 0) return 'Each path of the profile before is in the profile after.';
        const vanished = boxes.reduce((sum, box) => sum + before.weight[box], 0);
        const much = `${weightText(vanished, page.unit)}, ${percentText(vanished, before.total)} of the profile before`;
        const others = rest === 0 ? '' : ` ${separated(rest)} more went with ${boxes.length === 1 ? 'it' : 'them'}.`;
        return `${separated(boxes.length)} ${boxes.length === 1 ? 'path' : 'paths'}, together ${much}.${others}`;
    }

    // The weight, the callers, which are cut where there is no room, and the name.
    /** @type {(box: number) => HTMLLIElement} */
    item(box) {
        const { before, page } = this;
        const path = pathOf(page, before, box);
        const weight = before.weight[box];
        const callers = path.slice(0, -1).map((name) => `${nameText(name)} › `);
        const chosen = nameButton('', () => this.onChoose(box));
        const texts = [`${weightText(weight, page.unit)}  `, callers.join(''), nameText(page.names[before.name[box]])];
        chosen.append(...texts.map((text) => withText('span', text)));
        chosen.title = described(path.join(' › '));
        sayAbout(chosen, () => this.exactLine(box), this.say);
        const entry = document.createElement('li');
        entry.append(chosen);
        return entry;
    }

    // What the line below the picture says of a path: its last name, and its exact weights.
    /** @type {(box: number) => string} */
    exactLine(box) {
        const { before, page } = this;
        const [weight, own] = [before.weight[box], before.own[box]].map((each) => exactText(each, page.unit));
        return [shortened(page.names[before.name[box]], 300) || '(empty name)', `before ${weight}`, `own ${own}`].join(' · ');
    }

    showMore() {
        const { boxes, list, more } = this;
        const shown = list.children.length;
        for (const box of boxes.slice(shown, shown + GONE_STEP)) list.append(this.item(box));
        more.hidden = list.children.length >= boxes.length;
    }
}
