// What is seen of a drawing, told to a painter place by place.

import { ticksOf } from './axis.js';
import { changeShade } from './colours.js';
import { placeTitle } from './describe.js';
import { bandOf, bothWeights, comparedOf, isBeside, isTimeline, sourceOf } from './drawing.js';
import { PAD } from './lettering.js';
import { isJoined, placesOf } from './places.js';
import { ROW_HEIGHT, rowAt, rowTop } from './rows.js';
import { matchesIn } from './search.js';
import { lanesOf, spanOfRow } from './spans.js';
import { changeText } from './units.js';

/**
 * @typedef {import('./colours.js').Colours} Colours
 * @typedef {import('./data.js').Page} Page
 * @typedef {import('./drawing.js').Drawing} Drawing
 * @typedef {import('./lettering.js').Lettering} Lettering
 * @typedef {import('./places.js').Place} Place
 * @typedef {import('./search.js').Matches} Matches
 * @typedef {import('./spans.js').Span} Span
 */

/**
 * What is painted, and where. So many rows stand over each other, of which those are seen that are `top` or more below the top of all.
 * @typedef {object} Scene
 * @property {Page} page
 * @property {Drawing} drawing
 * @property {Span} span
 * @property {Matches | null} matches
 * @property {boolean} below
 * @property {boolean} isShare whether shares are compared, and not weights
 * @property {number} width
 * @property {number} height that of the rows that are seen
 * @property {number} top
 * @property {number} rowCount
 * @property {number} lanes the height of the sources and of the axis above the rows, 0 without
 * @property {Colours} colours
 * @property {(name: number) => number} shadeOf
 * @property {Lettering} lettering
 * @property {Lettering} sourceLettering
 */

/**
 * Paints rectangles, texts and upright lines, on a canvas or into an SVG. What is `entitled` has a title, where the painter can keep one.
 * @typedef {object} Painter
 * @property {(left: number, top: number, width: number, height: number, fill: string) => void} rectangle
 * @property {(left: number, middle: number, text: string, ink: string) => void} text
 * @property {(left: number, top: number, height: number, colour: string) => void} upright
 * @property {(titleOf: () => string, paint: () => void) => void} entitled
 */

const LANE_HEIGHT = 22;
const AXIS_HEIGHT = 16;
const TICK_HEIGHT = 12;

// A text is as wide as this at least.
const TEXT_FROM = 20;

// The fill and the ink of a box.
/** @type {(scene: Scene, box: number) => { fill: string, ink: string }} */
function coloursFor(scene, box) {
    const { drawing, colours, span, matches } = scene;
    if (matches && matches.isMatch(box)) return { fill: colours.match, ink: colours.matchInk };
    if (matches || drawing.depth[box] < spanOfRow(drawing, drawing.row[box], span).depth) return { fill: colours.dim, ink: colours.dimInk };
    if (drawing.other) {
        const { before, after } = comparedOf(scene.page, scene.isShare, bothWeights(drawing, box));
        return { fill: colours.changes[changeShade(before, after)], ink: colours.ink };
    }
    if (drawing.depth[box] === 0) return { fill: colours.root, ink: colours.ink };
    return { fill: colours.plain[scene.shadeOf(drawing.name[box])], ink: colours.ink };
}

// The fill of several boxes: what they have in common, or a colour of its own.
/** @type {(scene: Scene, place: Place) => string} */
function joinedFill({ drawing, colours, matches }, place) {
    if (!matches) return colours.joined;
    const matching = matchesIn(matches, drawing, place);
    if (matching === 0) return colours.dim;
    return matching === place.count ? colours.match : colours.joinedMatch;
}

/** @type {(scene: Scene, box: number) => string} */
function addedText(scene, box) {
    if (!scene.drawing.other) return '';
    const { before, after } = comparedOf(scene.page, scene.isShare, bothWeights(scene.drawing, box));
    return changeText(before, after);
}

/** @type {(painter: Painter, scene: Scene, place: Place, top: number) => void} */
function paintPlace(painter, scene, place, top) {
    const { box, left, right, begin, end } = place;
    if (isJoined(place)) {
        painter.rectangle(begin, top, end - begin, ROW_HEIGHT - 1, joinedFill(scene, place));
        return;
    }
    const { fill, ink } = coloursFor(scene, box);
    painter.rectangle(begin, top, end - begin, ROW_HEIGHT - 1, fill);
    if (right - left < TEXT_FROM || sourceOf(scene.drawing, box) >= 0) return;
    const text = scene.lettering.textFor(scene.drawing.name[box], addedText(scene, box), right - left);
    if (text) painter.text(left + PAD, top + ROW_HEIGHT / 2, text, ink);
}

// The name of a source that stands beside others, in the row of its root, which has nothing else: so there is room for it, however short the source.
/** @type {(painter: Painter, scene: Scene, row: number, top: number) => void} */
function paintSource(painter, scene, row, top) {
    const band = bandOf(scene.drawing, row);
    if (!band || band.row !== row) return;
    const text = scene.sourceLettering.textFor(band.source, '', scene.width);
    if (text) painter.text(PAD, top + ROW_HEIGHT / 2, text, coloursFor(scene, band.first).ink);
}

/** @type {(painter: Painter, scene: Scene, row: number) => void} */
function paintRow(painter, scene, row) {
    const top = scene.lanes + rowTop(scene.rowCount, row, scene.below) - scene.top;
    if (top >= scene.lanes + scene.height) return;
    for (const place of placesOf(scene.drawing, row, scene.span, scene.width)) {
        painter.entitled(() => placeTitle(scene, place), () => paintPlace(painter, scene, place, top));
    }
    paintSource(painter, scene, row, top);
}

// Where one source of a chart ends and the next begins.
/** @type {(painter: Painter, scene: Scene) => void} */
function paintBoundaries(painter, scene) {
    if (!isTimeline(scene.page, scene.drawing) || isBeside(scene.drawing)) return;
    const { span, width, lanes } = scene;
    for (const source of scene.page.sources.slice(1)) {
        if (source.start <= span.from || source.start >= span.to) continue;
        painter.upright(((source.start - span.from) * width) / (span.to - span.from), lanes, scene.height, scene.colours.line);
    }
}

// The names of the sources above a chart.
/** @type {(painter: Painter, scene: Scene) => void} */
function paintLanes(painter, scene) {
    for (const { number, left, right } of lanesOf(scene.page, scene.drawing, scene.span, scene.width)) {
        painter.rectangle(left, 0, Math.max(right - left - 1, 0.3), LANE_HEIGHT - 2, scene.colours.dim);
        const text = scene.sourceLettering.textFor(number, '', right - left);
        if (text) painter.text(left + PAD, LANE_HEIGHT / 2, text, scene.colours.ink);
    }
}

// The axis over the rows.
/** @type {(painter: Painter, scene: Scene) => void} */
function paintAxis(painter, scene) {
    const top = scene.lanes - AXIS_HEIGHT;
    for (const { left, text } of ticksOf(scene.page, scene.drawing, scene.span, scene.width)) {
        painter.upright(left, top, TICK_HEIGHT, scene.colours.line);
        painter.text(left + PAD, top + TICK_HEIGHT / 2, text, scene.colours.ink);
    }
}

// How much room there is above the rows of a picture that is saved, for the sources and the axis of a chart.
/** @type {(page: Page, drawing: Drawing) => number} */
export function lanesHeight(page, drawing) {
    if (!isTimeline(page, drawing)) return 0;
    return isBeside(drawing) ? AXIS_HEIGHT : LANE_HEIGHT + AXIS_HEIGHT;
}

/** @type {(painter: Painter, scene: Scene) => void} */
export function paintScene(painter, scene) {
    const { rowCount, below, top, lanes } = scene;
    painter.rectangle(0, 0, scene.width, lanes + scene.height, scene.colours.paper);
    if (lanes > 0) {
        paintLanes(painter, scene);
        paintAxis(painter, scene);
    }
    const rows = [rowAt(rowCount, top, below), rowAt(rowCount, top + scene.height, below)];
    const last = Math.min(rowCount - 1, Math.max(...rows));
    for (let row = Math.max(0, Math.min(...rows)); row <= last; row++) paintRow(painter, scene, row);
    paintBoundaries(painter, scene);
}
