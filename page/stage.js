// The canvas: as large as the part of the picture that is seen, whatever the picture's height.

import { paintOnCanvas } from './canvas.js';
import { DARK, LIGHT, nameShade, nameShades, packageShade } from './colours.js';
import { element, elementOf } from './elements.js';
import { Lettering } from './lettering.js';
import { placeOver, placesOf } from './places.js';
import { ROW_HEIGHT, rowAt, rowTop } from './rows.js';
import { lanesHeight } from './scene.js';
import { formsOf } from './short.js';
import { rowsInSpan } from './spans.js';

/**
 * @typedef {import('./colours.js').Colours} Colours
 * @typedef {import('./data.js').Page} Page
 * @typedef {import('./places.js').Place} Place
 * @typedef {import('./scene.js').Scene} Scene
 * @typedef {import('./view.js').View} View
 */

/**
 * The part of the picture that a scene has.
 * @typedef {Pick<Scene, 'width' | 'height' | 'top' | 'rowCount' | 'lanes'>} Part
 */

export class Stage {
    /** @param {Page} page */
    constructor(page) {
        this.page = page;
        this.picture = element('picture');
        this.picture.style.setProperty('--rows', String(page.drawing(page.drawingCount - 1).rowCount));
        this.canvas = elementOf('canvas', HTMLCanvasElement);
        this.darkness = matchMedia('(prefers-color-scheme: dark)');
        this.byName = nameShades(page.names, nameShade);
        this.byPackage = nameShades(page.names, packageShade);
        this.lettering = new Lettering(page.names, formsOf);
        this.sourceLettering = new Lettering(page.sources.map((source) => source.name), (name) => [name]);
        // What is on the canvas.
        this.painted = { width: 0, height: 0, top: 0 };
    }

    /** @type {() => { width: number, height: number, top: number }} */
    area() {
        return { width: this.picture.clientWidth, height: this.picture.clientHeight, top: this.picture.scrollTop };
    }

    /** @type {(view: View, part: Part, colours: Colours) => Scene} */
    scene(view, part, colours) {
        const { page, drawing, span, matches, state, isShare } = view;
        const { lettering, sourceLettering } = this;
        const shadeOf = state.byName ? this.byName : this.byPackage;
        return { page, drawing, span, matches, isShare, below: state.below, ...part, colours, shadeOf, lettering, sourceLettering };
    }

    // All rows of what is zoomed, with the sources above a chart: what is saved. On paper it is always light.
    /** @type {(view: View, isPaper: boolean) => Scene} */
    wholeScene(view, isPaper) {
        const { first, end } = rowsInSpan(view.drawing, view.span);
        const height = Math.max(end - first, 1) * ROW_HEIGHT;
        const lanes = lanesHeight(this.page, view.drawing);
        const top = view.state.below ? 0 : first * ROW_HEIGHT;
        const part = { width: this.picture.clientWidth, height, top, rowCount: end, lanes };
        return this.scene(view, part, this.darkness.matches && !isPaper ? DARK : LIGHT);
    }

    // Room for all rows, which the picture scrolls over.
    /** @type {(view: View) => void} */
    makeRoom(view) {
        element('room').style.height = `${view.drawing.rowCount * ROW_HEIGHT}px`;
    }

    // Paints what is seen.
    /** @type {(view: View) => void} */
    paint(view) {
        const area = this.area();
        const dots = window.devicePixelRatio || 1;
        this.fit(area.width, area.height, dots);
        const part = { ...area, rowCount: view.drawing.rowCount, lanes: 0 };
        paintOnCanvas(this.canvas, this.scene(view, part, this.darkness.matches ? DARK : LIGHT), dots);
        this.painted = area;
    }

    /** @type {(width: number, height: number, dots: number) => void} */
    fit(width, height, dots) {
        const { canvas } = this;
        const [across, down] = [Math.round(width * dots), Math.round(height * dots)];
        if (canvas.width === across && canvas.height === down) return;
        canvas.width = across;
        canvas.height = down;
        canvas.style.width = `${width}px`;
        canvas.style.height = `${height}px`;
    }

    // Whether the picture was scrolled or got another size since it was painted.
    /** @type {() => boolean} */
    isStale() {
        const { width, height, top } = this.area();
        return this.painted.width !== width || this.painted.height !== height || this.painted.top !== top;
    }

    // The place that is painted under a point of the window, or null.
    /** @type {(view: View, point: { clientX: number, clientY: number }) => Place | null} */
    placeUnder(view, point) {
        const { drawing, span, state } = view;
        const { left, top } = this.picture.getBoundingClientRect();
        const { width, top: scrolled } = this.area();
        const across = point.clientX - left;
        const row = rowAt(drawing.rowCount, point.clientY - top + scrolled, state.below);
        if (across < 0 || across >= width || row < 0 || row >= drawing.rowCount) return null;
        return placeOver(placesOf(drawing, row, span, width), across);
    }

    // Scrolls so that a row stands in the middle.
    /** @type {(view: View, row: number) => void} */
    centre(view, row) {
        const { picture } = this;
        picture.scrollTop = rowTop(view.drawing.rowCount, row, view.state.below) + (ROW_HEIGHT - picture.clientHeight) / 2;
    }

    // Scrolls no further than is needed to see a row.
    /** @type {(view: View, row: number) => void} */
    reveal(view, row) {
        const { picture } = this;
        const top = rowTop(view.drawing.rowCount, row, view.state.below);
        if (top < picture.scrollTop) picture.scrollTop = top;
        const lowest = picture.scrollTop + picture.clientHeight - ROW_HEIGHT;
        if (top > lowest) picture.scrollTop = top - picture.clientHeight + ROW_HEIGHT;
    }
}
