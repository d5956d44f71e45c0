// What is zoomed: the part of a drawing from one weight to another, which takes the whole width of the picture.

import { firstPlace } from './bisect.js';
import { bandOf, endOf, isBeside, isTimeline } from './drawing.js';

/**
 * @typedef {import('./data.js').Page} Page
 * @typedef {import('./data.js').Source} Source
 * @typedef {import('./drawing.js').Band} Band
 * @typedef {import('./drawing.js').Drawing} Drawing
 * @typedef {import('./view.js').State} State
 */

/**
 * From one weight to another. What is above that depth is not zoomed: it is what leads there. `row` is that of what is zoomed, -1 where that is in all
 * sources that stand side by side.
 * @typedef {{ from: number, to: number, depth: number, row: number }} Span
 */

/** @type {(page: Page, drawing: Drawing, state: State) => Span} */
export function spanOf(page, drawing, state) {
    const { source, box, from, to } = state;
    const isAside = isBeside(drawing);
    const band = drawing.bands.find((each) => each.source === source);
    if (band) return { from: 0, to: band.weight, depth: 0, row: band.row };
    if (source >= 0) {
        const { start, weight } = page.sources[source];
        return { from: start, to: start + weight, depth: 0, row: 0 };
    }
    if (drawing.count === 0) return { from: 0, to: 1, depth: 0, row: 0 };
    if (from >= 0) return { from, to, depth: 0, row: isAside ? -1 : 0 };
    if (isAside && box === 0) return { from: 0, to: drawing.length, depth: 0, row: -1 };
    return { from: drawing.start[box], to: endOf(drawing, box), depth: drawing.depth[box], row: drawing.row[box] };
}

// A part of a drawing, no less than a whole weight and no more than all. Small weights have digits behind the point, so that it moves by pixels.
/** @type {(from: number, width: number, total: number) => { from: number, to: number }} */
function partOf(from, width, total) {
    const wide = Math.min(total, Math.max(1, width));
    const begin = Math.min(total - wide, Math.max(0, from));
    const digits = total < 1e9 ? 1000 : 1;
    return { from: Math.round(begin * digits) / digits, to: Math.round((begin + wide) * digits) / digits };
}

// A part that is so many times as wide, with the same weight at that place of its width.
/** @type {(span: { from: number, to: number }, total: number, place: number, times: number) => { from: number, to: number }} */
export function widened({ from, to }, total, place, times) {
    const width = Math.min(total, Math.max(1, (to - from) * times));
    return partOf(from + place * (to - from - width), width, total);
}

// The part that stands so many of its widths to the right.
/** @type {(span: { from: number, to: number }, total: number, widths: number) => { from: number, to: number }} */
export function moved({ from, to }, total, widths) {
    return partOf(from + widths * (to - from), to - from, total);
}

// The band in which something is zoomed.
/** @type {(drawing: Drawing, span: Span) => Band | undefined} */
function zoomedBand(drawing, span) {
    return span.row < 0 ? undefined : bandOf(drawing, span.row);
}

// What is seen of a row. Where callers stand above callees, what is zoomed of the ones leaves the others as they are. Of sources that stand side by
// side the same part is seen of each, and what is zoomed of one has its callers there alone.
/** @type {(drawing: Drawing, row: number, span: Span) => Span} */
export function spanOfRow(drawing, row, span) {
    if (isBeside(drawing)) return span.depth === 0 || bandOf(drawing, row) === zoomedBand(drawing, span) ? span : { ...span, depth: 0 };
    if (drawing.centre < 0 || drawing.count === 0) return span;
    const centre = drawing.row[0];
    const isSameSide = (row - centre) * (span.row - centre) > 0;
    return isSameSide ? span : { from: 0, to: drawing.weight[0], depth: 0, row: centre };
}

/** @type {(drawing: Drawing, box: number, span: Span) => boolean} */
export function isInSpan(drawing, box, span) {
    const { from, to } = spanOfRow(drawing, drawing.row[box], span);
    return drawing.start[box] < to && endOf(drawing, box) > from;
}

// How much of the box lies in the span.
/** @type {(drawing: Drawing, box: number, span: Span) => number} */
export function weightInSpan(drawing, box, span) {
    const { from, to } = spanOfRow(drawing, drawing.row[box], span);
    return Math.max(0, Math.min(endOf(drawing, box), to) - Math.max(drawing.start[box], from));
}

// The boxes among which those stand that are zoomed: from one up to another.
/** @type {(drawing: Drawing, span: Span) => { first: number, end: number }} */
export function zoomedBoxes(drawing, span) {
    return zoomedBand(drawing, span) || { first: 0, end: drawing.count };
}

// What all that is zoomed weighs, where a row has a part in it, else 0.
/** @type {(drawing: Drawing, row: number, span: Span) => number} */
export function zoomedWeight(drawing, row, span) {
    const band = zoomedBand(drawing, span);
    if (band && band !== bandOf(drawing, row)) return 0;
    const { from, to } = spanOfRow(drawing, row, span);
    if (band || !isBeside(drawing)) return to - from;
    return drawing.bands.reduce((sum, { first }) => sum + weightInSpan(drawing, first, span), 0);
}

// Where the boxes of a row that are in the span stand in the order of the rows: from one place up to another.
/** @type {(drawing: Drawing, row: number, span: Span) => { from: number, to: number }} */
export function inRow(drawing, row, span) {
    const { first, order } = drawing.rows;
    const seen = spanOfRow(drawing, row, span);
    const from = firstPlace(first[row], first[row + 1], (at) => endOf(drawing, order[at]) > seen.from);
    return { from, to: firstPlace(from, first[row + 1], (at) => drawing.start[order[at]] >= seen.to) };
}

// The rows from the first to the last that has something in the span, of a source that stands beside others where something is zoomed in it: from
// one up to another.
/** @type {(drawing: Drawing, span: Span) => { first: number, end: number }} */
export function rowsInSpan(drawing, span) {
    /** @type {(row: number) => boolean} */
    const isEmpty = (row) => {
        const { from, to } = inRow(drawing, row, span);
        return from === to;
    };
    const { row, rowCount } = zoomedBand(drawing, span) || { row: 0, rowCount: drawing.rowCount };
    let [first, end] = [row, row + rowCount];
    while (first < end && isEmpty(first)) first++;
    while (end > first && isEmpty(end - 1)) end--;
    return { first, end };
}

// The edges of what goes from one weight to another, cut to what is seen of its row.
/** @type {(from: number, to: number, span: Span, width: number) => { left: number, right: number }} */
export function edgesOf(from, to, span, width) {
    const scale = width / (span.to - span.from);
    const left = Math.min(width, Math.max(0, (from - span.from) * scale));
    const right = Math.max(0, Math.min(width, (to - span.from) * scale));
    return { left, right };
}

// The sources of a chart that are seen one after another, with their edges on the screen.
/** @type {(page: Page, drawing: Drawing, span: Span, width: number) => { source: Source, number: number, left: number, right: number }[]} */
export function lanesOf(page, drawing, span, width) {
    if (!isTimeline(page, drawing) || isBeside(drawing)) return [];
    return page.sources
        .map((source, number) => ({ source, number, ...edgesOf(source.start, source.start + source.weight, span, width) }))
        .filter(({ left, right }) => right > left);
}
