// Where boxes stand on the screen, and which of them are seen. Painting, saving and the pointer go by the same places.

import { firstPlace, nextPlace } from './bisect.js';
import { endOf } from './drawing.js';
import { inRow, spanOfRow } from './spans.js';

/**
 * @typedef {import('./drawing.js').Drawing} Drawing
 * @typedef {import('./spans.js').Span} Span
 */

/**
 * What is seen in one place of a row: `count` boxes of the rows' order, from `at` on, of which `box` is the first. They stand from `left` to
 * `right`, and are painted from `begin` to `end`.
 * @typedef {{ at: number, count: number, box: number, left: number, right: number, begin: number, end: number }} Place
 */

// What is so wide has sharp edges.
const SHARP_FROM = 3;
// What is narrower than this can hardly be seen.
const NARROWEST = 0.3;

// The places of a row, from left to right. A box that is at least a pixel wide is a place of its own. Narrower ones that begin in one pixel are
// one place together, so a row takes no longer than it has pixels, however many boxes it has.
/** @type {(drawing: Drawing, row: number, span: Span, width: number) => Place[]} */
export function placesOf(drawing, row, span, width) {
    const { order } = drawing.rows;
    const { from, to } = inRow(drawing, row, span);
    const seen = spanOfRow(drawing, row, span);
    const scale = width / (seen.to - seen.from);
    /** @type {(at: number) => number} */
    const leftOf = (at) => Math.max(0, (drawing.start[order[at]] - seen.from) * scale);
    /** @type {(at: number) => number} */
    const rightOf = (at) => Math.min(width, (endOf(drawing, order[at]) - seen.from) * scale);
    /** @type {(at: number) => boolean} */
    const isNarrow = (at) => rightOf(at) - leftOf(at) < 1;
    /** @type {Place[]} */
    const places = [];
    let painted = 0;
    for (let at = from, next = from; at < to; at = next) {
        const left = leftOf(at);
        next = at + 1;
        if (next < to && isNarrow(at)) {
            next = nextPlace(next, to, (each) => leftOf(each) >= Math.floor(left) + 1);
            // Behind a box that is a pixel wide nothing else begins in its first pixel.
            if (!isNarrow(next - 1)) next--;
        }
        const right = rightOf(next - 1);
        const edges = paintedEdges(left, right, painted);
        places.push({ at, count: next - at, box: order[at], left, right, ...edges });
        painted = edges.end;
    }
    return places;
}

// From where to where a place is painted that stands behind one that is painted up to `before`. What is wide enough has sharp edges, and leaves a
// line of paper between it and the next. What is narrower than can be seen takes more of the pixel that it begins in, where that is free. Nothing
// is painted over another, nor further than a pixel from where it stands.
/** @type {(left: number, right: number, before: number) => { begin: number, end: number }} */
function paintedEdges(left, right, before) {
    const pixelEnd = Math.floor(left) + 1;
    if (right - left < SHARP_FROM) {
        const begin = Math.max(before, Math.min(left, Math.max(right, pixelEnd) - NARROWEST));
        return { begin, end: Math.max(right, Math.min(begin + NARROWEST, pixelEnd)) };
    }
    const begin = Math.round(left);
    return { begin: begin < before ? pixelEnd : begin, end: Math.round(right) - 1 };
}

// The place that is painted over a point, or null. The line of paper behind a place belongs to it.
/** @type {(places: Place[], across: number) => Place | null} */
export function placeOver(places, across) {
    const pixel = Math.floor(across);
    const at = firstPlace(0, places.length, (each) => places[each].end > across);
    if (at < places.length && places[at].begin < pixel + 1) return places[at];
    const before = places[at - 1];
    return before && Math.max(before.end, Math.round(before.right)) > pixel ? before : null;
}

// Whether a place is one of several boxes.
/** @type {(place: Place) => boolean} */
export function isJoined(place) {
    return place.count > 1;
}

// The sum of what the boxes of a place weigh.
/** @type {(drawing: Drawing, place: Place, weightOf: (box: number) => number) => number} */
export function weighedTogether(drawing, place, weightOf) {
    let weight = 0;
    for (let at = place.at; at < place.at + place.count; at++) weight += weightOf(drawing.rows.order[at]);
    return weight;
}
