// The boxes of a drawing in memory: their numbers as typed arrays, and what follows from them.

import { firstPlace } from './bisect.js';
import { boxesTold } from './columns.js';
import { rowsOf } from './rows.js';

/**
 * @typedef {import('./data.js').Page} Page
 * @typedef {import('./rows.js').Rows} Rows
 */

/**
 * What can be looked at: a flame graph, a snapshot of one, a chart, or one of the two graphs of a comparison. A box is a number below `count`;
 * the columns have its depth, the number of its name, and its weights. `end` is the first box after it that does not stand on it. The callers and
 * callees of a function are a drawing, too, whose first box is the function: `depth` is how far a box is from it. So are the sources of a chart
 * side by side, each a band, in which `start` is counted from where the source begins.
 * @typedef {object} Drawing
 * @property {number} number which of the page's drawings it is made of
 * @property {number} centre the name of the function whose callers and callees it has, -1 in others
 * @property {number} callees the first box that is no caller of the first one
 * @property {number | undefined} at how many samples were taken, in snapshots
 * @property {number[] | undefined} counts how many of them are of each source, in snapshots
 * @property {Band[]} bands
 * @property {number} total
 * @property {number} length how far its boxes go from 0 on: the total, or what the heaviest of its bands weighs
 * @property {number} least
 * @property {{ boxes: number, weight: number }} leftOut
 * @property {number} count
 * @property {Int32Array} depth
 * @property {Int32Array} row the row in which it stands
 * @property {Int32Array} name
 * @property {Float64Array} start
 * @property {Float64Array} weight
 * @property {Float64Array} own
 * @property {Float64Array | null} other the weights in the other profile, in comparisons
 * @property {number} rowCount
 * @property {Rows} rows
 * @property {Int32Array} parent the box on which it stands, its caller, -1 of the root; but the callers of a function stand on what they call
 * @property {Int32Array} end
 */

/**
 * A source that stands beside others: its number, its weight, where it begins in the chart, its boxes, the root first, and its rows.
 * @typedef {{ source: number, weight: number, start: number, first: number, end: number, row: number, rowCount: number }} Band
 */

/** @typedef {Omit<Drawing, keyof Columns | 'count' | 'rowCount' | 'rows' | 'parent' | 'end'>} About */
/** @typedef {Pick<Drawing, 'depth' | 'row' | 'name' | 'start' | 'weight' | 'own' | 'other'>} Columns */

/** @type {(count: number) => Int32Array} */
export function upTo(count) {
    const numbers = new Int32Array(count);
    for (let number = 0; number < count; number++) numbers[number] = number;
    return numbers;
}

// For each box its caller, and where in the order that ends which stands on it.
/** @type {(depths: Int32Array) => { parent: Int32Array, end: Int32Array }} */
function nestingOf(depths) {
    const parent = new Int32Array(depths.length);
    const end = new Int32Array(depths.length).fill(depths.length);
    /** @type {number[]} */
    const open = [];
    let opened = 0;
    depths.forEach((depth, box) => {
        while (opened > depth) end[open[--opened]] = box;
        parent[box] = depth === 0 ? -1 : open[depth - 1];
        open[opened++] = box;
    });
    return { parent, end };
}

// The drawing with these columns, in which each box comes behind the one on which it stands.
/** @type {(about: About, columns: Columns) => Drawing} */
export function drawingWith(about, columns) {
    const { depth, row } = columns;
    const rowCount = row.reduce((most, each) => Math.max(most, each + 1), 0);
    const rows = rowsOf(row, rowCount, upTo(row.length));
    return { ...about, ...columns, count: depth.length, rowCount, rows, ...nestingOf(depth) };
}

// The drawing of which the document's columns tell, by its number.
/** @type {(columns: any, number: number) => Drawing} */
export function drawingOf(columns, number) {
    const { at, counts, total, least, left_out: leftOut } = columns;
    const { depth, start, weight, own } = boxesTold(columns);
    return drawingWith({ number, centre: -1, callees: 1, bands: [], at, counts, total, length: total, least, leftOut }, {
        depth,
        row: depth,
        name: new Int32Array(columns.name),
        start,
        weight,
        own,
        other: columns.other ? new Float64Array(columns.other) : null,
    });
}

// Whether a box is no function, but all samples.
/** @type {(drawing: Drawing, box: number) => boolean} */
export function isRoot(drawing, box) {
    return drawing.depth[box] === 0 && drawing.centre < 0;
}

// Whether a box is a caller of the function whose callers and callees are drawn.
/** @type {(drawing: Drawing, box: number) => boolean} */
export function isCaller(drawing, box) {
    return box > 0 && box < drawing.callees;
}

/** @type {(drawing: Drawing) => boolean} */
export function isBeside(drawing) {
    return drawing.bands.length > 0;
}

// The band that has a row.
/** @type {(drawing: Drawing, row: number) => Band | undefined} */
export function bandOf({ bands }, row) {
    return bands[firstPlace(0, bands.length, (each) => bands[each].row > row) - 1];
}

// The source of which a box is the root, -1 where it is none's.
/** @type {(drawing: Drawing, box: number) => number} */
export function sourceOf(drawing, box) {
    const band = isRoot(drawing, box) ? bandOf(drawing, drawing.row[box]) : undefined;
    return band ? band.source : -1;
}

// What a box is called: the root of a source that stands beside others has its name.
/** @type {(page: Page, drawing: Drawing, box: number) => string} */
export function nameOf(page, drawing, box) {
    const source = sourceOf(drawing, box);
    return source < 0 ? page.names[drawing.name[box]] : page.sources[source].name;
}

// Where a box begins where all sources stand one after another.
/** @type {(drawing: Drawing, box: number) => number} */
export function timeOf(drawing, box) {
    const band = bandOf(drawing, drawing.row[box]);
    return drawing.start[box] + (band ? band.start : 0);
}

// Whether it goes by time.
/** @type {(page: Page, drawing: Drawing) => boolean} */
export function isTimeline(page, drawing) {
    return page.view === 'chart' && drawing.centre < 0;
}

/** @type {(drawing: Drawing, box: number) => number} */
export function endOf(drawing, box) {
    return drawing.start[box] + drawing.weight[box];
}

// The names from the one on the first box to this box: the frames of a stack, or what leads from a function to it.
/** @type {(page: Page, drawing: Drawing, box: number) => string[]} */
export function pathOf(page, drawing, box) {
    const path = [];
    for (let each = box; each >= 0 && drawing.depth[each] > 0; each = drawing.parent[each]) path.push(page.names[drawing.name[each]]);
    return path.reverse();
}

// The boxes of which a path may begin, and where they stand from 0 on: callers of a function, or others, or those of the source at that time.
/** @type {(drawing: Drawing, time: number, isUp: boolean) => { first: number, end: number, zero: number }} */
function beginningsOf(drawing, time, isUp) {
    const { bands } = drawing;
    const band = bands[Math.max(0, firstPlace(0, bands.length, (each) => bands[each].start > time) - 1)];
    if (band) return { first: band.first + 1, end: band.end, zero: band.start };
    return isUp ? { first: 1, end: drawing.callees, zero: 0 } : { first: drawing.callees, end: drawing.count, zero: 0 };
}

// The box of the path, or the last on the way to it. Of boxes with the same path, as charts have them, the one at that time is meant. The path is
// one of callers of a function, or not.
/** @type {(page: Page, drawing: Drawing, path: string[], time: number, isUp: boolean) => number} */
export function boxAt(page, drawing, path, time, isUp) {
    let found = 0;
    let { first, end, zero } = beginningsOf(drawing, time, isUp);
    const start = time - zero;
    for (const name of path) {
        let fallback = -1;
        let exact = -1;
        for (let box = first; box < end && exact < 0; box = drawing.end[box]) {
            if (page.names[drawing.name[box]] !== name) continue;
            if (fallback < 0) fallback = box;
            if (start >= drawing.start[box] && start < endOf(drawing, box)) exact = box;
        }
        const next = exact >= 0 ? exact : fallback;
        if (next < 0) break;
        found = next;
        [first, end] = [next + 1, drawing.end[next]];
    }
    return found;
}

/**
 * What a comparison compares.
 * @typedef {{ before: number, after: number }} Both
 */

// What is compared of weights in both profiles: these, or their shares of what each profile weighs. Shares are told by one number that is large
// enough for both: they are times the product of both wholes. Of nothing there are no shares.
/** @type {(page: Page, isShare: boolean, weights: Both) => Both} */
export function comparedOf(page, isShare, weights) {
    const [before, after] = isShare ? [0, 1].map((number) => page.drawing(number).total) : [0, 0];
    if (before === 0 || after === 0) return weights;
    return { before: weights.before * after, after: weights.after * before };
}

// The weights of the box's path before and after, in a comparison. Its first drawing is that of the profile before.
/** @type {(drawing: Drawing, box: number) => Both} */
export function bothWeights(drawing, box) {
    const here = drawing.weight[box];
    const there = drawing.other ? drawing.other[box] : here;
    return drawing.number === 0 ? { before: here, after: there } : { before: there, after: here };
}
