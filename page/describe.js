// What is told of a box, and of a place that has several: in the tip and in saved pictures at a glance, and in the line below the picture and to
// screen readers with the exact numbers.

import { bandOf, bothWeights, comparedOf, endOf, isCaller, isTimeline, nameOf } from './drawing.js';
import { described, nameText, shortened } from './names.js';
import { isJoined, weighedTogether } from './places.js';
import { spanOfRow, weightInSpan, zoomedWeight } from './spans.js';
import { changeText, exactText, percentText, separated, weightText } from './units.js';

/**
 * @typedef {import('./data.js').Page} Page
 * @typedef {import('./drawing.js').Drawing} Drawing
 * @typedef {import('./places.js').Place} Place
 * @typedef {import('./spans.js').Span} Span
 */

/**
 * What is looked at: all that a text of a box is made of.
 * @typedef {{ page: Page, drawing: Drawing, span: Span, isShare: boolean }} Seen
 */

/**
 * A weight as it is read: at a glance, or exactly.
 * @typedef {(weight: number, unit: string | null) => string} Telling
 */

// The parts of what is told: the weight, the own weight, that in the other profile, and the place in time.
/** @type {(seen: Seen, box: number, tell: Telling) => string[]} */
function detailsOf(seen, box, tell) {
    const { page, drawing, span } = seen;
    const details = [weightDetail(seen, drawing.row[box], drawing.weight[box], weightInSpan(drawing, box, span), tell)];
    // The samples of a caller end in what it calls.
    if (!isCaller(drawing, box)) details.push(`own ${tell(drawing.own[box], page.unit)}`);
    if (drawing.other) details.push(changeDetail(seen, box, tell));
    if (isTimeline(page, drawing)) details.push(timeDetail(page, drawing, box));
    return details;
}

// A weight in a row, how much it is of the whole, and how much that which lies in the span is of it.
/** @type {(seen: Seen, row: number, weight: number, inSpan: number, tell: Telling) => string} */
function weightDetail({ page, drawing, span }, row, weight, inSpan, tell) {
    const whole = zoomedWeight(drawing, row, span);
    const what = drawing.centre >= 0 && spanOfRow(drawing, row, span).depth === 0 ? shortened(page.names[drawing.centre], 60) : 'what is zoomed';
    const zoomed = whole > 0 && whole < drawing.total ? `, ${percentText(inSpan, whole)} of ${what}` : '';
    return `${tell(weight, page.unit)}, ${sharesText(page, drawing, weight)}${zoomed}`;
}

// How much a weight is of what is kept and, where a filter leaves samples out, of the whole. A profile of two and a snapshot have no
// whole of their own.
/** @type {(page: Page, drawing: Drawing, weight: number) => string} */
function sharesText(page, drawing, weight) {
    const share = percentText(weight, drawing.total);
    if (!page.isFiltered) return `${share} of the whole`;
    const hasWhole = page.view !== 'compare' && drawing.at === undefined;
    return `${share} of what is kept${hasWhole ? `, ${percentText(weight, page.whole)} of the whole` : ''}`;
}

// The weight in the other profile, and the change. That in the profile which is looked at is told already.
/** @type {(seen: Seen, box: number, tell: Telling) => string} */
function changeDetail({ page, drawing, isShare }, box, tell) {
    const weights = bothWeights(drawing, box);
    const [when, weight] = drawing.number === 0 ? ['after', weights.after] : ['before', weights.before];
    const share = isShare ? `, ${percentText(weight, page.drawing(1 - drawing.number).total)} of its whole` : '';
    const { before, after } = comparedOf(page, isShare, weights);
    return `${when} ${tell(weight, page.unit)}${share}: ${changeText(before, after)}${isShare ? ' of its share' : ''}`;
}

// When a box of a chart begins and ends, and in which sources.
/** @type {(page: Page, drawing: Drawing, box: number) => string} */
function timeDetail(page, drawing, box) {
    const from = drawing.start[box];
    const to = endOf(drawing, box);
    const band = bandOf(drawing, drawing.row[box]);
    const names = page.sources
        .filter((source, number) => (band ? band.source === number : source.start < to && source.start + source.weight > from))
        .map((source) => shortened(source.name, 60));
    const shown = names.length > 3 ? `${names.slice(0, 3).join(', ')} and ${names.length - 3} more` : names.join(', ');
    return `from ${weightText(from, page.unit)} to ${weightText(to, page.unit)}, in ${shown}`;
}

// How many boxes a place has, and what they weigh together.
/** @type {(seen: Seen, place: Place, tell: Telling) => string[]} */
function joinedDetails(seen, place, tell) {
    const { drawing, span } = seen;
    const weight = weighedTogether(drawing, place, (box) => drawing.weight[box]);
    const inSpan = weighedTogether(drawing, place, (box) => weightInSpan(drawing, box, span));
    const much = weightDetail(seen, drawing.row[place.box], weight, inSpan, tell);
    return [`${separated(place.count)} boxes, each narrower than a pixel`, `together ${much}`];
}

/** @type {(seen: Seen, box: number) => string} */
export function boxLine(seen, box) {
    return [shortened(nameOf(seen.page, seen.drawing, box), 300) || '(empty name)', ...detailsOf(seen, box, exactText)].join(' · ');
}

// The paragraphs of the tip over a place.
/** @type {(seen: Seen, place: Place) => string[]} */
export function placeDetails(seen, place) {
    if (isJoined(place)) return joinedDetails(seen, place, weightText);
    return [described(nameOf(seen.page, seen.drawing, place.box)), ...detailsOf(seen, place.box, weightText)];
}

// The same in one line.
/** @type {(seen: Seen, place: Place) => string} */
export function placeLine(seen, place) {
    return isJoined(place) ? joinedDetails(seen, place, exactText).join(' · ') : boxLine(seen, place.box);
}

// The title of a place in a saved picture: its name and its weight, and in a comparison that in the other profile.
/** @type {(seen: Seen, place: Place) => string} */
export function placeTitle(seen, place) {
    const { page, drawing, span } = seen;
    const { box } = place;
    if (isJoined(place)) return joinedDetails(seen, place, weightText).join(' · ');
    const much = weightDetail(seen, drawing.row[box], drawing.weight[box], weightInSpan(drawing, box, span), weightText);
    const title = [nameText(nameOf(page, drawing, box)), much];
    if (drawing.other) title.push(changeDetail(seen, box, weightText));
    return title.join(' · ');
}
