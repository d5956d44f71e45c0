// What the document says.

import { besideOf } from './beside.js';
import { callersOf } from './callers.js';
import { drawingOf } from './drawing.js';
import { leftHeavy } from './heaviest.js';
import { commonUnit, weighty } from './units.js';

/**
 * @typedef {import('./drawing.js').Drawing} Drawing
 */

/**
 * A file. `start` is where it begins in a chart: the weight of those before it.
 * @typedef {{ name: string, type: string, unit: string, weight: number, start: number }} Source
 */

/**
 * The document. A name is meant by its number in `names`.
 * @typedef {object} Page
 * @property {'graph' | 'chart' | 'compare'} view
 * @property {string} title
 * @property {string[]} names
 * @property {Source[]} sources
 * @property {string | null} unit that of all sources, null where they have different ones
 * @property {number} whole the weight of all samples
 * @property {number} kept the weight of those that a filter keeps
 * @property {boolean} isFiltered
 * @property {boolean} isBelow whether it opens with the root below
 * @property {boolean} isShare whether it opens by shares
 * @property {boolean} hasMore whether a page with more samples is to take its place
 * @property {number} drawingCount
 * @property {(number: number) => Drawing} drawing
 * @property {(choice: Choice) => Drawing} arranged the drawing that is chosen, as it is chosen
 */

/**
 * What a reader looks at: a drawing, of it all or the callers and callees of a function by its name (-1 for none), whether heavy boxes come first,
 * and whether the sources of a chart stand side by side.
 * @typedef {{ drawing: number, callers: number, heavy: boolean, beside: boolean }} Choice
 */

// Whether there are sources that can stand side by side.
/** @type {(page: Page) => boolean} */
export function hasLanes(page) {
    return page.view === 'chart' && weighty(page.sources).length > 1;
}

// Gives each drawing by its number. It is made when it is first asked for, and its columns are let go.
/** @type {(columns: any[]) => (number: number) => Drawing} */
function drawingsOf(columns) {
    /** @type {Drawing[]} */
    const made = [];
    return (number) => {
        if (!made[number]) {
            made[number] = drawingOf(columns[number], number);
            columns[number] = null;
        }
        return made[number];
    };
}

// Gives the drawings that are chosen, and keeps the last of those that it makes.
/** @type {(drawing: (number: number) => Drawing, sources: Source[], isComparison: boolean, nameCount: number) => (choice: Choice) => Drawing} */
function arranging(drawing, sources, isComparison, nameCount) {
    /** @type {Drawing | null} */
    let last = null;
    let asked = '';
    return ({ drawing: number, callers, heavy, beside }) => {
        const base = drawing(number);
        if (callers < 0 && !heavy && !beside) return base;
        const key = callers < 0 ? `${number} ${beside}` : `${number} callers ${callers}`;
        if (last && asked === key) return last;
        const there = isComparison ? drawing(1 - number) : null;
        const arranged = () => (beside ? besideOf(base, sources) : leftHeavy(base));
        last = callers < 0 ? arranged() : callersOf(base, there, callers, nameCount);
        asked = key;
        return last;
    };
}

// The page with these data, as docs/PAGE-DATA.md describes them.
/** @type {(data: any) => Page} */
export function pageOf(data) {
    let start = 0;
    /** @type {Source[]} */
    const sources = [];
    for (const source of data.sources) {
        sources.push({ ...source, start });
        start += source.weight;
    }
    // A page of `live` tells no sources, and no filter was there.
    const kept = sources.length > 0 ? start : data.whole;
    const drawing = drawingsOf(data.drawings);
    return {
        view: data.view,
        title: data.title,
        names: data.names,
        sources,
        unit: commonUnit(sources),
        whole: data.whole,
        kept,
        // Sums above 2^53 are rounded, and a rounded sum is no filter's doing.
        isFiltered: data.whole > kept + data.whole * 2 ** -50,
        isBelow: data.root_below === true,
        isShare: data.share === true,
        hasMore: data.more === true,
        drawingCount: data.drawings.length,
        drawing,
        arranged: arranging(drawing, sources, data.view === 'compare', data.names.length),
    };
}
