// The focused box: a ring around it, which is also what a screen reader hears of, and where keys lead.

import { firstPlace } from './bisect.js';
import { boxLine } from './describe.js';
import { bandOf, endOf, isRoot, sourceOf } from './drawing.js';
import { element } from './elements.js';
import { ROW_HEIGHT, rowTop } from './rows.js';
import { edgesOf, inRow, isInSpan, spanOfRow } from './spans.js';

/**
 * @typedef {import('./drawing.js').Drawing} Drawing
 * @typedef {import('./spans.js').Span} Span
 * @typedef {import('./view.js').State} State
 * @typedef {import('./view.js').View} View
 */

// A ring is as wide as this at least.
const NARROWEST_RING = 4;

// The place of a box among those of its row.
/** @type {(drawing: Drawing, box: number) => number} */
function placeInRow(drawing, box) {
    const { first, order } = drawing.rows;
    const row = drawing.row[box];
    return firstPlace(first[row], first[row + 1], (at) => order[at] >= box);
}

// Two elements take turns, since a reader tells of a new one only.
export class Ring {
    /** @param {HTMLElement} picture */
    constructor(picture) {
        this.picture = picture;
        this.rings = [element('ring-0'), element('ring-1')];
        this.used = 0;
        this.shown = '';
    }

    /** @type {(view: View) => void} */
    show(view) {
        const { picture, rings } = this;
        if (view.drawing.count === 0 || !isInSpan(view.drawing, view.state.focus, view.span)) {
            for (const ring of rings) ring.hidden = true;
            picture.removeAttribute('aria-activedescendant');
            return;
        }
        const text = boxLine(view, view.state.focus);
        if (text !== this.shown) {
            rings[this.used].hidden = true;
            this.used = 1 - this.used;
            this.shown = text;
        }
        const ring = rings[this.used];
        this.place(ring, view);
        this.label(ring, view, text);
        ring.hidden = false;
        picture.setAttribute('aria-activedescendant', ring.id);
    }

    /** @type {(ring: HTMLElement, view: View) => void} */
    place(ring, view) {
        const { drawing, span, state } = view;
        const { focus } = state;
        const row = drawing.row[focus];
        const seen = spanOfRow(drawing, row, span);
        const { left, right } = edgesOf(drawing.start[focus], endOf(drawing, focus), seen, this.picture.clientWidth);
        ring.style.left = `${left}px`;
        ring.style.width = `${Math.max(right - left, NARROWEST_RING)}px`;
        ring.style.top = `${rowTop(drawing.rowCount, row, state.below)}px`;
        ring.style.height = `${ROW_HEIGHT}px`;
    }

    /** @type {(ring: HTMLElement, view: View, text: string) => void} */
    label(ring, view, text) {
        const { drawing, state } = view;
        const row = drawing.row[state.focus];
        const [first, stop] = [drawing.rows.first[row], drawing.rows.first[row + 1]];
        ring.setAttribute('aria-label', text);
        ring.setAttribute('aria-level', String(row - (bandOf(drawing, row)?.row || 0) + 1));
        ring.setAttribute('aria-setsize', String(stop - first));
        ring.setAttribute('aria-posinset', String(placeInRow(drawing, state.focus) - first + 1));
        ring.setAttribute('aria-selected', 'true');
    }
}

// The box that has the focus where that was asked for: what is zoomed, where the other is outside of it.
/** @type {(drawing: Drawing, state: Pick<State, 'source' | 'box'>, asked: number) => number} */
export function focusIn(drawing, { source, box }, asked) {
    const inside = { first: box, end: box === 0 ? drawing.count : drawing.end[box] };
    const { first, end } = drawing.bands.find((band) => band.source === source) || inside;
    return asked >= first && asked < end ? asked : first;
}

// The name of the focused box, -1 where that is no function, or the one whose callers are looked at.
/** @type {(view: View) => number} */
export function focusedFunction({ drawing, state }) {
    if (drawing.count === 0 || isRoot(drawing, state.focus)) return -1;
    const name = drawing.name[state.focus];
    return name === state.callers ? -1 : name;
}

// The box to which a key leads from the focused one, or -1.
/** @type {(view: View, key: string) => number} */
export function boxByKey(view, key) {
    const { drawing, span, state } = view;
    const box = state.focus;
    const row = drawing.row[box];
    const { from, to } = inRow(drawing, row, span);
    /** @type {(at: number) => number} */
    const seen = (at) => (at >= from && at < to ? drawing.rows.order[at] : -1);
    if (sourceOf(drawing, box) >= 0 && !/Up|Down/.test(key)) return rootBeside(view, key);
    const behind = state.below ? 'ArrowUp' : 'ArrowDown';
    if (key === 'ArrowUp' || key === 'ArrowDown') return boxBeside(drawing, box, span, key === behind ? row + 1 : row - 1);
    if (key === 'ArrowLeft') return seen(placeInRow(drawing, box) - 1);
    if (key === 'ArrowRight') return seen(placeInRow(drawing, box) + 1);
    if (key === 'Home') return seen(from);
    if (key === 'End') return seen(to - 1);
    return -1;
}

// The root to which a key leads from that of a source that stands beside others, or -1.
/** @type {(view: View, key: string) => number} */
function rootBeside({ drawing, span, state }, key) {
    const roots = drawing.bands.map(({ first }) => first).filter((each) => isInSpan(drawing, each, span));
    const at = roots.indexOf(state.focus);
    const wanted = { ArrowLeft: at - 1, ArrowRight: at + 1, Home: 0, End: roots.length - 1 }[key] ?? -1;
    return roots[wanted] ?? -1;
}

// In the row before or behind that of a box the one on which it stands, or else the heaviest of those that stand on it and are seen, or -1.
/** @type {(drawing: Drawing, box: number, span: Span, row: number) => number} */
function boxBeside(drawing, box, span, row) {
    const on = drawing.parent[box];
    if (on >= 0 && drawing.row[on] === row) return on;
    let found = -1;
    for (let each = box + 1; each < drawing.end[box]; each = drawing.end[each]) {
        if (drawing.row[each] !== row || !isInSpan(drawing, each, span)) continue;
        if (found < 0 || drawing.weight[each] > drawing.weight[found]) found = each;
    }
    return found;
}
