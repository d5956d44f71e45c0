// What calls a function, and what it calls: of each sample in whose stack it stands, the frames above its first one, and those from there on. So
// each sample is in both once, also where the function calls itself.

import { drawingWith } from './drawing.js';
import { heaviestFirst } from './heaviest.js';

/**
 * @typedef {import('./drawing.js').Drawing} Drawing
 */

/**
 * The boxes of one side in their order, the function first.
 * @typedef {{ depth: number[], name: number[], start: number[], weight: number[], own: number[], other: number[] | null }} Side
 */

// Paths that begin with the function, with their weights. A path is a number. It is another path, `parent`, or none, -1, and a name.
class Paths {
    /** @param {number} nameCount */
    constructor(nameCount) {
        this.nameCount = nameCount;
        /** @type {Map<number, number>} */
        this.numbers = new Map();
        /** @type {number[]} */
        this.parent = [];
        /** @type {number[]} */
        this.name = [];
        /** @type {number[]} */
        this.depth = [];
        /** @type {number[]} */
        this.weight = [];
        /** @type {number[]} */
        this.own = [];
    }

    // The number of a path, or -1 where there is none.
    /** @type {(parent: number, name: number) => number} */
    find(parent, name) {
        return this.numbers.get((parent + 1) * this.nameCount + name) ?? -1;
    }

    /** @type {(parent: number, name: number, weight: number, own: number) => number} */
    add(parent, name, weight, own) {
        let path = this.find(parent, name);
        if (path < 0) {
            path = this.parent.push(parent) - 1;
            this.numbers.set((parent + 1) * this.nameCount + name, path);
            this.name.push(name);
            this.depth.push(parent < 0 ? 0 : this.depth[parent] + 1);
            this.weight.push(0);
            this.own.push(0);
        }
        this.weight[path] += weight;
        this.own[path] += own;
        return path;
    }
}

// Nothing ends in a caller, so none has weight of its own.
/** @type {(callers: Paths, drawing: Drawing, box: number) => void} */
function addCallers(callers, drawing, box) {
    let path = -1;
    for (let each = box; drawing.depth[each] > 0; each = drawing.parent[each]) {
        path = callers.add(path, drawing.name[each], drawing.weight[box], 0);
    }
}

/** @type {(callees: Paths, drawing: Drawing, box: number) => void} */
function addCallees(callees, drawing, box) {
    /** @type {number[]} */
    const open = [];
    for (let each = box; each < drawing.end[box]; each++) {
        const depth = drawing.depth[each] - drawing.depth[box];
        open[depth] = callees.add(depth === 0 ? -1 : open[depth - 1], drawing.name[each], drawing.weight[each], drawing.own[each]);
    }
}

// The paths up and down from the first frame of the function in each stack.
/** @type {(drawing: Drawing, name: number, nameCount: number) => { callers: Paths, callees: Paths }} */
function pathsFrom(drawing, name, nameCount) {
    const [callers, callees] = [new Paths(nameCount), new Paths(nameCount)];
    for (let box = 0; box < drawing.count; ) {
        if (drawing.depth[box] === 0 || drawing.name[box] !== name) {
            box++;
            continue;
        }
        addCallers(callers, drawing, box);
        addCallees(callees, drawing, box);
        box = drawing.end[box];
    }
    return { callers, callees };
}

// What each path weighs in the other profile.
/** @type {(paths: Paths, others: Paths) => number[]} */
function weightsThere(paths, others) {
    /** @type {number[]} */
    const found = [];
    return paths.parent.map((parent, path) => {
        const isLost = parent >= 0 && found[parent] < 0;
        found[path] = isLost ? -1 : others.find(parent < 0 ? -1 : found[parent], paths.name[path]);
        return found[path] < 0 ? 0 : others.weight[found[path]];
    });
}

/** @type {(paths: Paths, others: Paths | null) => Side} */
function sideOf(paths, others) {
    const { order, start } = heaviestFirst(paths.parent, paths.weight);
    /** @type {(column: ArrayLike<number>) => number[]} */
    const ordered = (column) => Array.from(order, (path) => column[path]);
    return {
        depth: ordered(paths.depth),
        name: ordered(paths.name),
        start: ordered(start),
        weight: ordered(paths.weight),
        own: ordered(paths.own),
        other: others && ordered(weightsThere(paths, others)),
    };
}

// A drawing with the function in one row, what calls it in the rows before, and what it calls in those behind, the heaviest first. Its first box is
// the function; then come the callers and then the callees, each behind the one on which it stands. `there` is the other profile of a comparison.
// Where the function does not stand, there are no boxes.
/** @type {(drawing: Drawing, there: Drawing | null, name: number, nameCount: number) => Drawing} */
export function callersOf(drawing, there, name, nameCount) {
    const paths = pathsFrom(drawing, name, nameCount);
    const others = there && pathsFrom(there, name, nameCount);
    const callers = sideOf(paths.callers, others && others.callers);
    const callees = sideOf(paths.callees, others && others.callees);
    /** @type {<T>(above: T[], below: T[]) => T[]} */
    const joined = (above, below) => below.slice(0, 1).concat(above.slice(1), below.slice(1));
    const centreRow = callers.depth.reduce((most, depth) => Math.max(most, depth), 0);
    const rows = joined(callers.depth.map((depth) => centreRow - depth), callees.depth.map((depth) => centreRow + depth));
    const isCompared = callers.other !== null && callees.other !== null;
    return drawingWith({ ...drawing, centre: name, callees: Math.max(1, callers.depth.length) }, {
        depth: new Int32Array(joined(callers.depth, callees.depth)),
        row: new Int32Array(rows),
        name: new Int32Array(joined(callers.name, callees.name)),
        start: new Float64Array(joined(callers.start, callees.start)),
        weight: new Float64Array(joined(callers.weight, callees.weight)),
        own: new Float64Array(joined(callers.own, callees.own)),
        other: isCompared ? new Float64Array(joined(callers.other || [], callees.other || [])) : null,
    });
}
