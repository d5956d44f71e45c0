// A painter on a canvas.

import { contextOf } from './elements.js';
import { FONT } from './lettering.js';
import { paintScene } from './scene.js';

/** @typedef {import('./scene.js').Scene} Scene */

// Keeps what it is told until it is finished, and then paints colour by colour: another colour costs more than a box. Colours come in the
// order in which they are first told, and all texts and lines after the boxes.
class CanvasPainter {
    constructor() {
        /** @type {Map<string, number[]>} */
        this.boxes = new Map();
        /** @type {{ left: number, middle: number, text: string, ink: string }[]} */
        this.texts = [];
        /** @type {{ left: number, top: number, height: number, colour: string }[]} */
        this.lines = [];
    }

    /** @type {(left: number, top: number, width: number, height: number, fill: string) => void} */
    rectangle(left, top, width, height, fill) {
        const sides = this.boxes.get(fill);
        if (sides) sides.push(left, top, width, height);
        else this.boxes.set(fill, [left, top, width, height]);
    }

    /** @type {(left: number, middle: number, text: string, ink: string) => void} */
    text(left, middle, text, ink) {
        this.texts.push({ left, middle, text, ink });
    }

    /** @type {(left: number, top: number, height: number, colour: string) => void} */
    upright(left, top, height, colour) {
        this.lines.push({ left, top, height, colour });
    }

    // A canvas keeps no titles.
    /** @type {(titleOf: () => string, paint: () => void) => void} */
    entitled(titleOf, paint) {
        paint();
    }

    /** @type {(context: CanvasRenderingContext2D) => void} */
    finish(context) {
        for (const [fill, sides] of this.boxes) {
            context.fillStyle = fill;
            for (let at = 0; at < sides.length; at += 4) context.fillRect(sides[at], sides[at + 1], sides[at + 2], sides[at + 3]);
        }
        context.font = FONT;
        context.textBaseline = 'middle';
        context.direction = 'ltr';
        for (const { left, middle, text, ink } of this.texts) {
            context.fillStyle = ink;
            context.fillText(text, left, middle);
        }
        for (const { left, top, height, colour } of this.lines) {
            context.fillStyle = colour;
            context.fillRect(Math.round(left), top, 1, height);
        }
    }
}

// Paints a scene on a canvas that has so many dots a pixel.
/** @type {(canvas: HTMLCanvasElement, scene: Scene, dots: number) => void} */
export function paintOnCanvas(canvas, scene, dots) {
    const context = contextOf(canvas);
    context.setTransform(dots, 0, 0, dots, 0, 0);
    const painter = new CanvasPainter();
    paintScene(painter, scene);
    painter.finish(context);
}
