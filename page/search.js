// Search in names: which boxes match, and with how much weight.

import { firstPlace } from './bisect.js';
import { isRoot } from './drawing.js';
import { rowsOf } from './rows.js';

/**
 * @typedef {import('./drawing.js').Drawing} Drawing
 * @typedef {import('./places.js').Place} Place
 * @typedef {import('./rows.js').Rows} Rows
 */

/**
 * The boxes that match, in order, and the weight of their samples.
 * @typedef {{ boxes: number[], weight: number, rows: Rows, isMatch: (box: number) => boolean }} Matches
 */

// Whether the words match whatever is a capital letter: text without capital letters does.
/** @type {(find: string, by: string) => boolean} */
export function isEitherCase(find, by) {
    return by === 'text' && find === find.toLowerCase();
}

// A test of a name, or null where the words are no regular expression.
/** @type {(find: string, by: string) => ((name: string) => boolean) | null} */
function nameTest(find, by) {
    if (by === 'name') return (name) => name === find;
    const text = by === 'text' ? find.replace(/[\\^$.*+?()[\]{}|/]/g, '\\$&') : find;
    const flags = isEitherCase(find, by) ? 'iu' : 'u';
    try {
        const expression = new RegExp(text, flags);
        return (name) => expression.test(name);
    } catch {
        return null;
    }
}

// For each name 1 where it matches, or null where the words are no regular expression. Kept for the search that it was asked for last.
/** @type {(names: string[]) => (find: string, by: string) => Uint8Array | null} */
export function nameMatcher(names) {
    let asked = '';
    /** @type {Uint8Array | null} */
    let matching = null;
    return (find, by) => {
        const key = `${by} ${find}`;
        if (key !== asked) {
            const test = nameTest(find, by);
            asked = key;
            matching = test && Uint8Array.from(names, (name) => Number(test(name)));
        }
        return matching;
    };
}

// The boxes whose names match, the root aside, and the weight of their samples, each counted once: what stands on a match adds nothing.
/** @type {(drawing: Drawing, matching: Uint8Array) => Matches} */
export function matchesOf(drawing, matching) {
    const boxes = [];
    let weight = 0;
    let covered = 0;
    for (let box = 0; box < drawing.count; box++) {
        if (!matching[drawing.name[box]] || isRoot(drawing, box)) continue;
        boxes.push(box);
        if (box < covered) continue;
        covered = drawing.end[box];
        weight += drawing.weight[box];
    }
    return {
        boxes,
        weight,
        rows: rowsOf(drawing.row, drawing.rowCount, boxes),
        isMatch: (box) => !isRoot(drawing, box) && matching[drawing.name[box]] === 1,
    };
}

// How many boxes of a place match.
/** @type {(matches: Matches, drawing: Drawing, place: Place) => number} */
export function matchesIn(matches, drawing, place) {
    const { first, order } = matches.rows;
    const row = drawing.row[place.box];
    /** @type {(box: number) => number} */
    const firstFrom = (box) => firstPlace(first[row], first[row + 1], (at) => order[at] >= box);
    return firstFrom(drawing.rows.order[place.at + place.count - 1] + 1) - firstFrom(place.box);
}

// The match after or before a box, in a circle.
/** @type {(matches: Matches, box: number, isForward: boolean) => number} */
export function neighbourMatch(matches, box, isForward) {
    const { boxes } = matches;
    if (boxes.length === 0) return -1;
    if (isForward) return boxes[firstPlace(0, boxes.length, (place) => boxes[place] > box) % boxes.length];
    const place = firstPlace(0, boxes.length, (each) => boxes[each] >= box);
    return boxes[(place + boxes.length - 1) % boxes.length];
}

// The match behind or before a box where the heaviest come first, in a circle. Behind a box that does not match comes the heaviest.
/** @type {(matches: Matches, drawing: Drawing, box: number, isForward: boolean) => number} */
export function neighbourByWeight(matches, drawing, box, isForward) {
    const { boxes, isMatch } = matches;
    if (boxes.length === 0) return -1;
    /** @type {(one: number, other: number) => number} */
    const compare = (one, other) => drawing.weight[other] - drawing.weight[one] || one - other;
    const heaviest = boxes.slice().sort(compare);
    const at = isMatch(box) ? firstPlace(0, heaviest.length, (place) => compare(heaviest[place], box) >= 0) : isForward ? -1 : 0;
    return heaviest[(at + (isForward ? 1 : -1) + heaviest.length) % heaviest.length];
}
