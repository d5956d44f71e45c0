// Boxes in another order: of those on one box the heaviest first.

import { drawingWith, upTo } from './drawing.js';
import { rowsOf } from './rows.js';

/**
 * @typedef {import('./drawing.js').Drawing} Drawing
 */

// The boxes in their new order, and where each then starts: those that stand on one box, from its left edge on, the heaviest first, and of the same
// weight in the order that they had. A box comes behind its caller, -1 of none.
/** @type {(parent: ArrayLike<number>, weight: ArrayLike<number>) => { order: Int32Array, start: Float64Array }} */
export function heaviestFirst(parent, weight) {
    const count = parent.length;
    const callers = new Int32Array(count);
    for (let box = 0; box < count; box++) callers[box] = parent[box] + 1;
    const { first, order: callees } = rowsOf(callers, count + 1, upTo(count));
    const [order, start] = [new Int32Array(count), new Float64Array(count)];
    /** @type {number[]} */
    const open = [];
    /** @type {(box: number) => void} */
    const openOn = (box) => {
        const on = callees.subarray(first[box + 1], first[box + 2]);
        if (on.length > 1) on.sort((one, other) => weight[other] - weight[one] || one - other);
        let at = box < 0 ? 0 : start[box];
        for (const each of on) {
            start[each] = at;
            at += weight[each];
        }
        for (let each = on.length - 1; each >= 0; each--) open.push(on[each]);
    };
    openOn(-1);
    for (let made = 0; made < count; made++) {
        order[made] = Number(open.pop());
        openOn(order[made]);
    }
    return { order, start };
}

// The same boxes, the heaviest first.
/** @type {(drawing: Drawing) => Drawing} */
export function leftHeavy(drawing) {
    const { order, start } = heaviestFirst(drawing.parent, drawing.weight);
    // The columns are long, and what takes a function for each number takes several times as long.
    /** @type {<T extends Int32Array | Float64Array>(column: T, made: T) => T} */
    const ordered = (column, made) => {
        for (let at = 0; at < order.length; at++) made[at] = column[order[at]];
        return made;
    };
    /** @type {(column: Float64Array) => Float64Array} */
    const weights = (column) => ordered(column, new Float64Array(order.length));
    const depth = ordered(drawing.depth, new Int32Array(order.length));
    return drawingWith(drawing, {
        depth,
        row: depth,
        name: ordered(drawing.name, new Int32Array(order.length)),
        start: weights(start),
        weight: weights(drawing.weight),
        own: weights(drawing.own),
        other: drawing.other && weights(drawing.other),
    });
}
