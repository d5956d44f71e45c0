// What is looked at.

import { isBeside } from './drawing.js';
import { matchesOf } from './search.js';
import { spanOf } from './spans.js';

/**
 * @typedef {import('./data.js').Page} Page
 * @typedef {import('./drawing.js').Drawing} Drawing
 * @typedef {import('./search.js').Matches} Matches
 * @typedef {import('./spans.js').Span} Span
 */

/**
 * What a reader chose: the drawing, what of it is zoomed (a source of a chart, or none, -1, and a box, or a part of a chart from one weight to
 * another, -1 without), the words of the search and how they are meant, whether the root is below, how wide the lists are (0 where they are closed,
 * -1 as they are at first), whether a comparison is of shares, the name of the function whose callers and callees are looked at (-1 without),
 * whether of a graph the heaviest boxes come first, whether the sources of a chart stand side by side, whether boxes are coloured by name alone,
 * and the focused box.
 * @typedef {object} State
 * @property {number} drawing
 * @property {number} source
 * @property {number} box
 * @property {number} from
 * @property {number} to
 * @property {string} find
 * @property {string} by
 * @property {string} order in which matches come: by `place` or by `weight`
 * @property {boolean} below
 * @property {number} lists
 * @property {boolean} share
 * @property {number} callers
 * @property {boolean} heavy
 * @property {boolean} beside
 * @property {boolean} byName
 * @property {number} focus
 */

/**
 * A state, and what follows from it. There are no matches where nothing is searched for, and where the words are refused.
 * @typedef {object} View
 * @property {Page} page
 * @property {State} state
 * @property {Drawing} drawing
 * @property {Span} span
 * @property {Matches | null} matches
 * @property {boolean} isRefused whether the words are no regular expression
 * @property {boolean} isShare whether shares are compared, and not weights
 */

/** @typedef {(find: string, by: string) => Uint8Array | null} Matching */

// The matches of a state's search. Those of the last view are the same where nothing changed.
/** @type {(matching: Matching, drawing: Drawing, state: State, old: View | null) => { matches: Matches | null, isRefused: boolean }} */
function searched(matching, drawing, state, old) {
    if (state.find === '') return { matches: null, isRefused: false };
    const isSame = old && old.drawing === drawing && old.state.find === state.find && old.state.by === state.by;
    if (isSame && old.matches) return { matches: old.matches, isRefused: false };
    const names = matching(state.find, state.by);
    return { matches: names && matchesOf(drawing, names), isRefused: !names };
}

/** @type {(page: Page, matching: Matching, state: State, old: View | null) => View} */
export function viewOf(page, matching, state, old) {
    const drawing = page.arranged(state);
    const isShare = state.share;
    return { page, state, drawing, span: spanOf(page, drawing, state), isShare, ...searched(matching, drawing, state, old) };
}

// Nothing of the drawing is zoomed.
export const UNZOOMED = { source: -1, box: 0, from: -1, to: -1 };

/** @type {(view: View) => boolean} */
export function isZoomed({ state }) {
    return state.box > 0 || state.source >= 0 || state.from >= 0;
}

// What is looked at where no function's callers and callees are: with those, all of their drawing.
/** @type {(view: View) => View} */
export function wholeOf(view) {
    if (view.state.callers < 0) return view;
    const { page, isShare } = view;
    const state = { ...view.state, callers: -1, heavy: false, beside: false, ...UNZOOMED, focus: 0 };
    const drawing = page.drawing(state.drawing);
    return { page, state, drawing, span: spanOf(page, drawing, state), isShare, matches: null, isRefused: view.isRefused };
}

// Whether something else is zoomed, matches, or is compared.
/** @type {(old: View, view: View) => boolean} */
export function isOther(old, view) {
    const isSamePart = old.drawing === view.drawing && old.span.from === view.span.from && old.span.to === view.span.to && old.span.depth === view.span.depth;
    return !isSamePart || old.matches !== view.matches || old.isShare !== view.isShare;
}

// Whether something is zoomed that may stand in other rows.
/** @type {(old: View, view: View) => boolean} */
export function isElsewhere(old, { drawing, state }) {
    const isOtherBand = isBeside(drawing) && old.state.source !== state.source;
    return isOtherBand || old.state.box !== state.box || old.drawing !== drawing;
}
