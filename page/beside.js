// The sources of a chart side by side: each from 0 on, in rows of its own, its root with its name.

import { firstPlace } from './bisect.js';
import { drawingWith, endOf } from './drawing.js';
import { weightInSpan } from './spans.js';
import { ownInSpan } from './sums.js';

/**
 * @typedef {import('./data.js').Source} Source
 * @typedef {import('./drawing.js').Band} Band
 * @typedef {import('./drawing.js').Drawing} Drawing
 * @typedef {import('./spans.js').Span} Span
 */

/** @typedef {{ depth: number[], row: number[], name: number[], start: number[], weight: number[], own: number[] }} Pieces */

// The boxes that have a part in the span, in their order: on those that are open where it begins stands what begins in it.
/** @type {(chart: Drawing, span: Span) => number[]} */
function boxesIn(chart, { from, to }) {
    const first = firstPlace(0, chart.count, (box) => chart.start[box] >= from);
    const boxes = [];
    for (let box = first - 1; box >= 0; box = chart.parent[box]) {
        if (endOf(chart, box) > from) boxes.unshift(box);
    }
    for (let box = first; box < chart.count && chart.start[box] < to; box++) boxes.push(box);
    return boxes;
}

// Adds what lies of the boxes in the span, in rows from that one on. Answers how many rows there are.
/** @type {(pieces: Pieces, chart: Drawing, boxes: number[], span: Span, row: number) => number} */
function addPieces(pieces, chart, boxes, span, row) {
    let rowCount = 0;
    for (const box of boxes) {
        const depth = chart.depth[box];
        pieces.depth.push(depth);
        pieces.row.push(row + depth);
        pieces.name.push(chart.name[box]);
        pieces.start.push(Math.max(0, chart.start[box] - span.from));
        pieces.weight.push(weightInSpan(chart, box, span));
        pieces.own.push(ownInSpan(chart, box, span));
        rowCount = Math.max(rowCount, depth + 1);
    }
    return rowCount;
}

// The sources with weight, one band behind the other.
/** @type {(chart: Drawing, sources: Source[]) => Drawing} */
export function besideOf(chart, sources) {
    /** @type {Pieces} */
    const pieces = { depth: [], row: [], name: [], start: [], weight: [], own: [] };
    /** @type {Band[]} */
    const bands = [];
    let row = 0;
    for (const [source, { start, weight }] of sources.entries()) {
        const span = { from: start, to: start + weight, depth: 0, row: 0 };
        const boxes = weight > 0 ? boxesIn(chart, span) : [];
        if (boxes.length === 0) continue;
        const first = pieces.depth.length;
        const rowCount = addPieces(pieces, chart, boxes, span, row);
        bands.push({ source, weight, start, first, end: first + boxes.length, row, rowCount });
        row += rowCount;
    }
    const length = bands.reduce((most, { weight }) => Math.max(most, weight), 0);
    return drawingWith({ ...chart, bands, length }, {
        depth: new Int32Array(pieces.depth),
        row: new Int32Array(pieces.row),
        name: new Int32Array(pieces.name),
        start: new Float64Array(pieces.start),
        weight: new Float64Array(pieces.weight),
        own: new Float64Array(pieces.own),
        other: null,
    });
}
