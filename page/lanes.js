// The sources of a chart above it, each as wide as its part of the timeline, and the axis. A click zooms to a source.

import { ticksOf } from './axis.js';
import { isBeside, isTimeline } from './drawing.js';
import { element, nameButton, sayAbout, withText } from './elements.js';
import { described, shortened } from './names.js';
import { sourceText } from './notices.js';
import { lanesOf } from './spans.js';
import { exactText, weightText } from './units.js';

/**
 * @typedef {import('./data.js').Page} Page
 * @typedef {import('./view.js').View} View
 */

// Where a lane is narrower than this, nothing of its name is seen.
const PADDED_FROM = 20;

export class LaneStrip {
    /**
     * @param {Page} page
     * @param {(source: number) => void} onChoose
     * @param {(text: string) => void} say
     */
    constructor(page, onChoose, say) {
        this.page = page;
        this.strip = element('lanes');
        this.axis = element('axis');
        /** @type {HTMLButtonElement[]} */
        this.buttons = [];
        if (page.view !== 'chart') return;
        for (const [number, source] of page.sources.entries()) {
            const lane = nameButton(shortened(source.name, 300), () => onChoose(number));
            lane.title = `${described(source.name)}: ${weightText(source.weight, source.unit)}`;
            sayAbout(lane, () => sourceText(source, exactText), say);
            this.strip.append(lane);
            this.buttons.push(lane);
        }
    }

    /** @type {(view: View) => void} */
    show(view) {
        this.axis.hidden = !isTimeline(this.page, view.drawing);
        this.strip.hidden = this.axis.hidden || isBeside(view.drawing);
        this.showAxis(view);
        const seen = new Map(lanesOf(this.page, view.drawing, view.span, this.strip.clientWidth).map((lane) => [lane.number, lane]));
        for (const [number, button] of this.buttons.entries()) {
            const lane = seen.get(number);
            button.hidden = !lane;
            button.setAttribute('aria-pressed', String(view.state.source === number));
            if (!lane) continue;
            button.style.left = `${lane.left}px`;
            button.style.width = `${lane.right - lane.left}px`;
            button.style.padding = lane.right - lane.left < PADDED_FROM ? '0' : '';
        }
    }

    /** @type {(view: View) => void} */
    showAxis(view) {
        const ticks = ticksOf(this.page, view.drawing, view.span, this.axis.clientWidth);
        this.axis.replaceChildren(...ticks.map(({ left, text }) => {
            const tick = withText('span', text);
            tick.style.left = `${Math.round(left)}px`;
            return tick;
        }));
    }
}
