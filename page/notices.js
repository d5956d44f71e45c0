// What is said of the page: how much there is, of what, and what has to be known of it.

import { shortened, visible } from './names.js';
import { changeText, percentText, separated, weightText, weighty } from './units.js';

/**
 * @typedef {import('./data.js').Page} Page
 * @typedef {import('./data.js').Source} Source
 * @typedef {import('./drawing.js').Drawing} Drawing
 */

// What stands at the top: how much there is, and of what.
/** @type {(page: Page, drawing: Drawing) => string} */
export function summaryText(page, drawing) {
    const count = page.sources.length;
    const files = count === 0 ? '' : ` of ${count === 1 ? '1 source' : `${count} sources`}`;
    const types = [...new Set(weighty(page.sources).map((source) => source.type))];
    const type = types.length === 1 && types[0] !== '' ? ` of ${visible(types[0])}` : '';
    const boxes = `${separated(drawing.count)} ${drawing.count === 1 ? 'box' : 'boxes'}`;
    if (page.view === 'compare') {
        const [before, after] = page.sources.map((source) => source.weight);
        const weights = `before ${weightText(before, page.unit)}, after ${weightText(after, page.unit)}${type}`;
        return `Comparison: ${weights}, ${changeText(before, after)}; ${boxes}`;
    }
    const kind = page.view === 'graph' ? 'Flame graph' : 'Flame chart';
    return `${kind}${files}: ${weightText(drawing.total, page.unit)}${type}, ${boxes}`;
}

/** @type {(source: Source, tell: (weight: number, unit: string) => string) => string} */
export function sourceText(source, tell) {
    const type = source.type === '' ? '' : ` of ${visible(source.type)}`;
    return `${shortened(source.name, 300)}: ${tell(source.weight, source.unit)}${type}`;
}

/** @type {(page: Page) => string} */
function unitsNotice(page) {
    const told = weighty(page.sources).map(({ name, unit }) => `${shortened(name, 60)} in ${unit === '' ? 'plain numbers' : visible(unit)}`);
    const little = page.view === 'compare' ? 'comparing them' : 'their sum';
    return `The sources have different units, so ${little} means little: ${told.join(', ')}.`;
}

/** @type {(page: Page) => string} */
function typesNotice(page) {
    const told = weighty(page.sources).map(({ name, type }) => `${shortened(name, 60)} has ${type === '' ? 'none' : visible(type)}`);
    return `The sources have different types of samples: ${told.join(', ')}.`;
}

/** @type {(page: Page) => string} */
function filterNotice(page) {
    const share = percentText(page.kept, page.whole);
    const kept = share === '100%' ? 'more than 99.9%' : share;
    const whole = page.view === 'compare' ? 'the whole of both profiles' : 'the whole';
    return `A filter keeps ${kept} of ${whole}: ${weightText(page.kept, page.unit)} of ${weightText(page.whole, page.unit)}.`;
}

// How much of a drawing the page does not have, empty where it has all of it.
/** @type {(page: Page, drawing: Drawing, of: string) => string} */
function leftOutNotice(page, drawing, of) {
    const { boxes, weight } = drawing.leftOut;
    if (boxes === 0) return '';
    const many = `${separated(boxes)} ${boxes === 1 ? 'box' : 'boxes'} of together ${weightText(weight, page.unit)}`;
    return `Left out${of}: ${many}, each lighter than ${weightText(drawing.least, page.unit)}. Neither the search nor the lists count them.`;
}

// The lists of a comparison are of both profiles, whichever is looked at.
/** @type {(page: Page, drawing: Drawing) => string[]} */
function leftOutNotices(page, drawing) {
    if (page.view !== 'compare') return [leftOutNotice(page, drawing, '')];
    return [leftOutNotice(page, page.drawing(0), ' of the profile before'), leftOutNotice(page, page.drawing(1), ' of the profile after')];
}

// What has to be said before anyone looks at the picture.
/** @type {(page: Page, drawing: Drawing) => string[]} */
export function noticesOf(page, drawing) {
    const notices = page.hasMore ? ['More samples are to come: this page loads itself again.'] : [];
    if (page.unit === null) notices.push(unitsNotice(page));
    else if (new Set(weighty(page.sources).map((source) => source.type)).size > 1) notices.push(typesNotice(page));
    if (page.isFiltered) notices.push(filterNotice(page));
    if (Math.max(page.kept, page.whole) > Number.MAX_SAFE_INTEGER) {
        const limit = separated(Number.MAX_SAFE_INTEGER);
        notices.push(`Weights above ${limit} are rounded here: JavaScript has no more digits. The data in the document is exact.`);
    }
    notices.push(...leftOutNotices(page, drawing).filter((notice) => notice !== ''));
    if (drawing.count === 0 && drawing.leftOut.boxes === 0) notices.push('No sample has weight, so there is nothing to draw.');
    return notices;
}

// Of what function the callers and the callees are drawn, empty where they are of none.
/** @type {(page: Page, drawing: Drawing) => string} */
export function centreText(page, drawing) {
    if (drawing.centre < 0) return '';
    const name = shortened(page.names[drawing.centre], 100) || '(empty name)';
    return drawing.count > 0 ? `callers and callees of ${name}` : `${name} is not here`;
}

// How many of a snapshot's samples are of each source.
/** @type {(page: Page, counts: number[]) => string} */
function countsText(page, counts) {
    const most = 8;
    const told = page.sources.slice(0, most).map(({ name }, source) => `${separated(counts[source])} of ${shortened(name, 60)}`);
    const others = counts.slice(most).reduce((sum, count) => sum + count, 0);
    return told.join(', ') + (counts.length > most ? ` and ${separated(others)} of ${counts.length - most} more sources` : '');
}

// What the drawing is called where there are several.
/** @type {(page: Page, drawing: Drawing, number: number) => string} */
export function drawingText(page, drawing, number) {
    if (page.view === 'compare') return `${number === 0 ? 'before' : 'after'}: ${shortened(page.sources[number].name, 100)}`;
    if (page.drawingCount === 1) return '';
    if (drawing.at === undefined || !drawing.counts) return 'all samples';
    const first = drawing.at === 1 ? 'the first sample' : `the first ${separated(drawing.at)} samples`;
    return page.sources.length > 1 ? `${first}: ${countsText(page, drawing.counts)}` : first;
}
