// Colours: by a hash of the name and its package, or by the change between two profiles; light and dark.

import { packageOf } from './short.js';

/**
 * @typedef {object} Colours
 * @property {string} paper
 * @property {string} ink
 * @property {string} line
 * @property {string} root
 * @property {string} dim what steps back
 * @property {string} dimInk
 * @property {string} joined several boxes in one place
 * @property {string} joinedMatch several, of which some match and others do not
 * @property {string} match
 * @property {string} matchInk
 * @property {string[]} plain
 * @property {string[]} changes
 */

const HUES = 36;
const SHADES = 3;
const CHANGES = 10;

// The colours of plain boxes, one for each hue and shade.
/** @type {(saturation: number, lightest: number, step: number) => string[]} */
function plainFills(saturation, lightest, step) {
    const fills = [];
    for (let shade = 0; shade < SHADES; shade++) {
        for (let hue = 0; hue < HUES; hue++) {
            fills.push(`hsl(${(hue * 360) / HUES}, ${saturation}%, ${lightest + shade * step}%)`);
        }
    }
    return fills;
}

// From the most blue over grey to the most red.
/** @type {(saturation: number, still: number, full: number) => string[]} */
function changeFills(saturation, still, full) {
    const fills = [];
    for (let change = -CHANGES; change <= CHANGES; change++) {
        const much = Math.abs(change) / CHANGES;
        const hue = change < 0 ? 213 : 6;
        const used = change === 0 ? 0 : saturation * (0.35 + 0.65 * much);
        fills.push(`hsl(${hue}, ${used.toFixed(1)}%, ${(still + (full - still) * much).toFixed(1)}%)`);
    }
    return fills;
}

/** @type {Colours} */
export const LIGHT = {
    paper: '#fbfbf9', ink: '#1f2226', line: '#80868f', root: 'hsl(220, 8%, 82%)', dim: 'hsl(220, 8%, 90%)', dimInk: '#555b64',
    joined: '#9aa0a8', joinedMatch: '#a982bb', match: 'hsl(285, 48%, 45%)', matchInk: '#ffffff', plain: plainFills(48, 74, 4),
    changes: changeFills(74, 88, 68),
};

/** @type {Colours} */
export const DARK = {
    paper: '#1b1d20', ink: '#eef0f2', line: '#7c828b', root: 'hsl(220, 6%, 34%)', dim: 'hsl(220, 6%, 22%)', dimInk: '#a9afb8',
    joined: '#5d646e', joinedMatch: '#8c589d', match: 'hsl(285, 50%, 68%)', matchInk: '#17121a', plain: plainFills(26, 25, 4),
    changes: changeFills(52, 30, 38),
};

// From -1 where all is gone to 1 where all is new.
/** @type {(before: number, after: number) => number} */
function changeOf(before, after) {
    return before === after ? 0 : (after - before) / Math.max(before, after);
}

// The place of a change among the colours of changes: only no change at all is grey.
/** @type {(before: number, after: number) => number} */
export function changeShade(before, after) {
    const change = changeOf(before, after);
    return Math.sign(change) * Math.ceil(Math.abs(change) * CHANGES) + CHANGES;
}

// The place of a name's colour among the plain ones, the same on each page: a hash of its bytes, spread over all bits.
/** @type {(name: string) => number} */
export function nameShade(name) {
    let hash = 0;
    for (const byte of new TextEncoder().encode(name)) hash = (Math.imul(hash, 31) + byte) >>> 0;
    const spread = Math.imul(hash, 2654435769) >>> 0;
    return Math.floor(spread / 65536) % (HUES * SHADES);
}

// The place of a name's colour by its package: with the hue that the package would have as a name, and as light as the name's own. A name without
// a package has a hue of its own.
/** @type {(name: string) => number} */
export function packageShade(name) {
    const hue = nameShade(packageOf(name) || name) % HUES;
    return Math.floor(nameShade(name) / HUES) * HUES + hue;
}

// For the number of each name the place of its colour. A name is hashed when it is first seen.
/** @type {(names: string[], shadeOf: (name: string) => number) => (name: number) => number} */
export function nameShades(names, shadeOf) {
    const shades = new Int16Array(names.length).fill(-1);
    return (name) => {
        if (shades[name] < 0) shades[name] = shadeOf(names[name]);
        return shades[name];
    };
}
