// Saving a picture as a file.

import { paintOnCanvas } from './canvas.js';
import { svgOf } from './svg.js';
import { separated } from './units.js';

/** @typedef {import('./scene.js').Scene} Scene */

// What browsers have room for on one canvas.
const LONGEST_SIDE = 16384;
const LARGEST_AREA = 2 ** 28;

/** @type {(blob: Blob, name: string) => void} */
function offer(blob, name) {
    const link = document.createElement('a');
    link.href = URL.createObjectURL(blob);
    link.download = name;
    link.click();
    setTimeout(() => URL.revokeObjectURL(link.href), 10000);
}

// A file's name of the title: letters, digits, dots and dashes.
/** @type {(title: string, ending: string) => string} */
function fileName(title, ending) {
    const plain = title.slice(0, 80).replace(/[^A-Za-z0-9.-]+/g, '-').replace(/^[.-]+|[.-]+$/g, '');
    return `${plain || 'flamecollect'}.${ending}`;
}

/** @type {(scene: Scene) => void} */
export function saveSvg(scene) {
    offer(new Blob([svgOf(scene, false)], { type: 'image/svg+xml' }), fileName(scene.page.title, 'svg'));
}

// How many dots a pixel has in a PNG of that size: two, one, or none where no canvas is that large.
/** @type {(width: number, height: number) => number} */
function dotsFor(width, height) {
    const fitting = [2, 1].find((dots) => Math.max(width, height) * dots <= LONGEST_SIDE && width * height * dots ** 2 <= LARGEST_AREA);
    return fitting || 0;
}

// Saves the picture, or says why it can't.
/** @type {(scene: Scene, say: (text: string) => void) => void} */
export function savePng(scene, say) {
    const [width, height] = [scene.width, scene.lanes + scene.height];
    const refuse = () => say(`A PNG of ${separated(width)} by ${separated(height)} pixels is too large for this browser. An SVG is not.`);
    const dots = dotsFor(width, height);
    if (dots === 0) {
        refuse();
        return;
    }
    const canvas = document.createElement('canvas');
    [canvas.width, canvas.height] = [width * dots, height * dots];
    paintOnCanvas(canvas, scene, dots);
    canvas.toBlob((blob) => (blob ? offer(blob, fileName(scene.page.title, 'png')) : refuse()), 'image/png');
}
