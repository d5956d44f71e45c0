// What the table of a comparison says of functions: their own and their total weights in what is zoomed, before and after.

import { boxAt, comparedOf, pathOf } from './drawing.js';
import { spanOf } from './spans.js';
import { zoomedPart } from './sums.js';
import { changeText, differenceText, percentText, weightText } from './units.js';

/**
 * @typedef {import('./drawing.js').Both} Both
 * @typedef {import('./sums.js').Part} Part
 * @typedef {import('./view.js').View} View
 */

/**
 * The parts of both profiles in what is looked at.
 * @typedef {{ view: View, parts: Part[] }} Comparison
 */

/** @typedef {'own' | 'total'} Kind */

/**
 * What is written of own or of total weights. Each has two lines: a weight, and percents.
 * @typedef {{ before: string[], after: string[], change: string[] }} Texts
 */

// What a profile has in the path that is zoomed: nothing where it does not have the path.
/** @type {(view: View, number: number) => Part} */
function partOfProfile(view, number) {
    const { page, drawing, state } = view;
    if (number === drawing.number) return zoomedPart(view);
    const profile = page.drawing(number);
    const path = pathOf(page, drawing, state.box);
    const box = boxAt(page, profile, path, -1, false);
    const isThere = profile.count > 0 && profile.depth[box] === path.length;
    const there = { ...state, drawing: number, box };
    if (isThere) return zoomedPart({ ...view, drawing: profile, state: there, span: spanOf(page, profile, there) });
    const none = new Float64Array(page.names.length);
    return { own: none, total: none, whole: 0 };
}

/** @type {(view: View) => Comparison} */
export function comparisonOf(view) {
    return { view, parts: [0, 1].map((number) => partOfProfile(view, number)) };
}

// The own or the total weights of a function in both profiles.
/** @type {(comparison: Comparison, name: number, kind: Kind) => Both} */
export function weightsOf({ parts }, name, kind) {
    const [before, after] = parts.map((part) => part[kind][name]);
    return { before, after };
}

// The number by which a column is sorted, by its key: `own` or `total`, and of these `before`, `after`, `change` or `percent`.
/** @type {(comparison: Comparison, name: number, key: string) => number} */
export function comparedValue(comparison, name, key) {
    const { page, isShare } = comparison.view;
    const [kind, column] = key.split('-');
    const { before, after } = comparedOf(page, isShare, weightsOf(comparison, name, kind === 'own' ? 'own' : 'total'));
    if (column === 'before') return before;
    if (column === 'after') return after;
    return column === 'change' ? after - before : (after - before) / before;
}

// What is written of a function. Percents are of what is zoomed there, or where shares are compared of all of the profile, and then the change is
// in points of these.
/** @type {(comparison: Comparison, name: number, kind: Kind) => Texts} */
export function comparedTexts(comparison, name, kind) {
    const { page, isShare } = comparison.view;
    const weights = weightsOf(comparison, name, kind);
    const [whole, wholeAfter] = comparison.parts.map((part, number) => (isShare ? page.drawing(number).total : part.whole));
    const { before, after } = weights;
    const compared = comparedOf(page, isShare, weights);
    const change = isShare ? pointsText(before / (whole || 1), after / (wholeAfter || 1)) : differenceText(before, after, page.unit);
    return {
        before: [weightText(before, page.unit), percentText(before, whole)],
        after: [weightText(after, page.unit), percentText(after, wholeAfter)],
        change: [change, changeText(compared.before, compared.after)],
    };
}

// How much larger the second of two shares is.
/** @type {(before: number, after: number) => string} */
function pointsText(before, after) {
    const sign = after > before ? '+' : after < before ? '−' : '';
    return sign + percentText(Math.abs(after - before), 1);
}
