// Random small inputs, the same in each run, and what the tests of pure functions compare with.

import { pageOf } from './page/data.js';

const NAMES = ['main', 'read', 'Read', 'parse', 'a/b', '100%', 'x&y=1', '#', 'é😀', '', 'std::vec::push', 'λ. x'];

// Numbers that a seed gives: mulberry32.
export function randomOf(seed) {
    const next = () => {
        seed = (seed + 0x6d2b79f5) | 0;
        let mixed = Math.imul(seed ^ (seed >>> 15), 1 | seed);
        mixed = (mixed + Math.imul(mixed ^ (mixed >>> 7), 61 | mixed)) ^ mixed;
        return ((mixed ^ (mixed >>> 14)) >>> 0) / 2 ** 32;
    };
    const below = (limit) => Math.floor(next() * limit);
    return { next, below, choose: (list) => list[below(list.length)] };
}

// What the columns of a document tell of boxes: plainly, as docs/PAGE-DATA.md says it.
export function toldOf({ depth, start, weight, own }) {
    const end = start.map((each, box) => each + weight[box]);
    const isOn = (box) => depth[box] === (depth[box - 1] ?? 0) + 1;
    return {
        up: depth.map((each, box) => (depth[box - 1] ?? 0) + 1 - each),
        gap: start.map((each, box) => each - ((isOn(box) ? start : end)[box - 1] ?? 0)),
        tail: end.map((each, box) => (isOn(box) ? end[box - 1] - each : weight[box])),
        rest: own.map((each, box) => (isOn(box + 1) ? each : weight[box] - each)),
    };
}

// The boxes of a tree as columns: weights of all sizes, gaps before callees, and rows of many small ones. In a chart callees may have a name twice.
export function columnsOf(random, isChart) {
    const columns = { depth: [], name: [], start: [], weight: [], own: [] };
    const gap = () => random.choose([0, 0, 0, 1, 3, 40]);
    const grow = (depth, name, start) => {
        const box = columns.depth.length;
        columns.depth.push(depth);
        columns.name.push(name);
        columns.start.push(start);
        columns.weight.push(0);
        columns.own.push(0);
        let [at, own] = [start, random.choose([1, 1, 2, 5, 900])];
        const names = NAMES.map((_, each) => each);
        const most = depth === 0 ? 12 : random.choose([0, 0, 1, 2, 3, 12].slice(0, 7 - depth));
        for (let callee = 0; callee < most; callee++) {
            const before = gap();
            own += before;
            at += before;
            const chosen = random.below(names.length);
            grow(depth + 1, names[chosen], at);
            if (!isChart) names.splice(chosen, 1);
            at = endOfLast(columns, depth + 1);
        }
        columns.own[box] = own;
        const callees = columns.weight.filter((_, other) => other > box && columns.depth[other] === depth + 1);
        columns.weight[box] = callees.reduce((sum, weight) => sum + weight, own);
    };
    grow(0, 0, 0);
    return { ...columns, total: columns.weight[0], least: 0, left_out: { boxes: 0, weight: 0 } };
}

// Where the last box of that depth ends.
function endOfLast(columns, depth) {
    const box = columns.depth.lastIndexOf(depth);
    return columns.start[box] + columns.weight[box];
}

// What a comparison has in the other profile: nothing over what is gone.
function othersOf(random, { depth }) {
    const others = [];
    depth.forEach((each, box) => {
        const caller = depth.slice(0, box).lastIndexOf(each - 1);
        others.push(each > 0 && others[caller] === 0 ? 0 : random.choose([0, 1, 5, 900]));
    });
    return others;
}

// A page with a drawing or two.
export function randomPage(random, view) {
    const drawings = [columnsOf(random, view === 'chart')];
    if (view === 'compare') drawings.push(columnsOf(random, false));
    if (view === 'compare') for (const each of drawings) each.other = othersOf(random, each);
    const { total, start } = drawings[0];
    // A source may begin where a box does.
    const third = Math.floor(total / 3);
    const cut = (total % 2 ? randomOf(total).choose(start) : third) || third;
    const parts = view === 'chart' ? [cut, 0, total - cut] : drawings.map((each) => each.total);
    const sources = parts.map((weight, number) => ({ name: `source${number}`, type: '', unit: '', weight }));
    const whole = parts.reduce((sum, each) => sum + each);
    const names = [...NAMES, 'nowhere'];
    const told = drawings.map((each) => ({ ...each, ...toldOf(each) }));
    const below = random.below(2) ? { root_below: true } : {};
    const share = view === 'compare' && random.below(2) ? { share: true } : {};
    return pageOf({ view, title: 'random', names, sources, whole, drawings: told, ...below, ...share });
}

// Does something with so many random pages of each view.
export function forPages(count, action) {
    for (let seed = 0; seed < count; seed++) {
        for (const view of ['graph', 'chart', 'compare']) {
            const random = randomOf(1000 * seed + view.length);
            action(randomPage(random, view), random, `${view} ${seed}`);
        }
    }
}

// All boxes of a drawing.
export function boxesOf(drawing) {
    return Array.from(drawing.depth, (_, box) => box);
}

// The box and its callers.
export function onPath(drawing, box) {
    const path = [];
    for (let each = box, depth = drawing.depth[box]; each >= 0; each--) {
        if (drawing.depth[each] !== depth) continue;
        path.push(each);
        depth--;
    }
    return path;
}

// A part of a drawing: what a box covers, or any other.
export function randomSpan(drawing, random) {
    const box = random.below(drawing.count);
    if (random.below(3) > 0) {
        return { from: drawing.start[box], to: drawing.start[box] + drawing.weight[box], depth: drawing.depth[box], row: drawing.row[box] };
    }
    const from = random.below(drawing.total);
    return { from, to: from + 1 + random.below(drawing.total - from), depth: 0, row: 0 };
}

export function same(found, wanted, what) {
    const [one, other] = [found, wanted].map((value) => JSON.stringify(value));
    if (one !== other) throw new Error(`${what}: found ${one}, wanted ${other}`);
}

export function holds(condition, what) {
    if (!condition) throw new Error(what);
}
