// The own and the total weight of each function, in a part of a drawing.

import { isInSpan, weightInSpan, zoomedBoxes, zoomedWeight } from './spans.js';
import { isZoomed } from './view.js';

/**
 * @typedef {import('./drawing.js').Drawing} Drawing
 * @typedef {import('./spans.js').Span} Span
 * @typedef {import('./view.js').View} View
 */

/**
 * For each name its own weight, and its total, recursion counted once.
 * @typedef {{ own: Float64Array, total: Float64Array }} Sums
 */

/**
 * The sums in what is zoomed, and what all of that weighs.
 * @typedef {Sums & { whole: number }} Part
 */

// How much of the samples that end in a box lies in the span. Where the span cuts the box, what was left out of the data may be in this too.
/** @type {(drawing: Drawing, box: number, span: Span) => number} */
export function ownInSpan(drawing, box, span) {
    const own = drawing.own[box];
    let rest = weightInSpan(drawing, box, span);
    if (rest === drawing.weight[box]) return own;
    for (let each = box + 1; each < drawing.end[box]; each = drawing.end[each]) rest -= weightInSpan(drawing, each, span);
    return Math.min(own, rest);
}

// For each name the sum of its boxes' own weights in the span, and of the weights there of those that stand on no box of the same name. Neither the
// root is a function, nor do callers count of what is zoomed.
/** @type {(drawing: Drawing, nameCount: number, span: Span) => Sums} */
export function sumsOf(drawing, nameCount, span) {
    const own = new Float64Array(nameCount);
    const total = new Float64Array(nameCount);
    const covered = new Int32Array(nameCount);
    const top = Math.max(1, span.depth);
    const { first, end } = zoomedBoxes(drawing, span);
    for (let box = first; box < end; box++) {
        if (drawing.depth[box] < top || !isInSpan(drawing, box, span)) continue;
        const name = drawing.name[box];
        own[name] += ownInSpan(drawing, box, span);
        if (box < covered[name]) continue;
        covered[name] = drawing.end[box];
        total[name] += weightInSpan(drawing, box, span);
    }
    return { own, total };
}

/** @type {(view: View) => Part} */
export function zoomedPart(view) {
    const { page, drawing, span } = view;
    const whole = isZoomed(view) ? zoomedWeight(drawing, span.row, span) : drawing.total;
    return { ...sumsOf(drawing, page.names.length, span), whole };
}
