// The axis of a chart: ticks along its width, at round numbers of the unit.

import { isTimeline } from './drawing.js';
import { unitStep } from './units.js';

/**
 * @typedef {import('./data.js').Page} Page
 * @typedef {import('./drawing.js').Drawing} Drawing
 * @typedef {import('./spans.js').Span} Span
 */

/** @typedef {{ left: number, text: string }} Tick */

// How wide a character is at most, and the room that a tick has beside its text.
const LETTER = 7.5;
const ROOM = 24;

// The step from one tick to the next with that number, and how many digits it has behind the point: 1, 2 and 5 times each power of ten.
/** @type {(number: number) => { step: number, digits: number }} */
function roundStep(number) {
    const power = Math.floor(number / 3);
    const times = [1, 2, 5][number - 3 * power];
    return { step: power < 0 ? times / 10 ** -power : times * 10 ** power, digits: Math.max(0, -power) };
}

/** @type {(number: number, digits: number, sign: string) => string} */
function tickText(number, digits, sign) {
    const text = number.toLocaleString('en', { minimumFractionDigits: digits, maximumFractionDigits: digits });
    return sign === '' ? text : `${text} ${sign}`;
}

// The ticks of what is seen, as many as have room: all in the step of the unit that the last of them takes, and none between two whole weights.
/** @type {(page: Page, drawing: Drawing, span: Span, width: number) => Tick[]} */
export function ticksOf(page, drawing, span, width) {
    if (!isTimeline(page, drawing) || drawing.count === 0 || width <= 0) return [];
    const { size, sign } = unitStep(span.to, page.unit);
    const scale = (size * width) / (span.to - span.from);
    /** @type {(digits: number) => number} */
    const longest = (digits) => tickText(span.to / size, digits, sign).length * LETTER;
    let number = 3 * Math.floor(Math.log10(ROOM / scale));
    while (roundStep(number).step * scale < longest(roundStep(number).digits) + ROOM || roundStep(number).step * size < 1) number++;
    const { step, digits } = roundStep(number);
    const ticks = [];
    for (let each = Math.ceil(span.from / size / step); (each * step - span.from / size) * scale + longest(digits) <= width; each++) {
        ticks.push({ left: (each * step - span.from / size) * scale, text: tickText(each * step, digits, sign) });
    }
    return ticks;
}
