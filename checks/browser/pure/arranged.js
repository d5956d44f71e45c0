// Tests of other arrangements of boxes: the callers and callees of a function, heavy boxes first, and the sources of a chart side by side.

import { boxAt, isCaller, nameOf, pathOf, timeOf } from './page/drawing.js';
import { boxByKey } from './page/focus.js';
import { inRow, isInSpan, lanesOf, rowsInSpan, spanOf, spanOfRow, weightInSpan, zoomedWeight } from './page/spans.js';
import { sumsOf } from './page/sums.js';
import { boxesOf, forPages, holds, onPath, same } from './random.js';

// The samples of a drawing: of each box those that end in it, and those of which the rest is not drawn.
function samplesOf(drawing) {
    return boxesOf(drawing).map((box) => {
        const on = boxesOf(drawing).filter((each) => onPath(drawing, each)[1] === box);
        const stack = onPath(drawing, box).slice(0, -1).reverse().map((each) => drawing.name[each]);
        return { stack, own: drawing.own[box], weight: on.reduce((rest, each) => rest - drawing.weight[each], drawing.weight[box]) };
    });
}

// What the samples with a function weigh, by what leads up and down from its first frame in each: for each way its weight, and what ends there.
function plainCallers(samples, name) {
    const ways = new Map();
    const add = (side, path, weight, own) => {
        const key = path.length === 1 ? `function ${name}` : `${side} ${path}`;
        const [before, ended] = ways.get(key) || [0, 0];
        if (path.length > 1 || side === 'down') ways.set(key, [before + weight, ended + own]);
    };
    for (const { stack, own, weight } of samples) {
        const at = stack.indexOf(name);
        if (at < 0) continue;
        const [up, down] = [stack.slice(0, at + 1).reverse(), stack.slice(at)];
        up.forEach((_, each) => add('up', up.slice(0, each + 1), weight, 0));
        down.forEach((_, each) => add('down', down.slice(0, each + 1), weight, each + 1 === down.length ? own : 0));
    }
    return ways;
}

// Of those that stand on one box, on one side, the heaviest come first, one at the edge of the other.
function isLaidOut(drawing, what) {
    for (const box of boxesOf(drawing)) {
        for (const isUp of [false, true]) {
            const on = boxesOf(drawing).filter((each) => onPath(drawing, each)[1] === box && isCaller(drawing, each) === isUp);
            let [at, last] = [drawing.start[box], Infinity];
            for (const each of on) {
                holds(drawing.start[each] === at && drawing.weight[each] <= last, `${what}: ${each} on ${box} is not the next by weight`);
                at += drawing.weight[each];
                last = drawing.weight[each];
            }
        }
    }
}

// Does something with the callers and callees of each function of random pages.
function forFunctions(count, action) {
    forPages(count, (page, random, what) => {
        const number = random.below(page.drawingCount);
        page.names.forEach((text, name) => {
            const drawing = page.arranged({ drawing: number, callers: name, heavy: false });
            action({ page, drawing, number, name, random }, `${what}, callers of ${text}`);
        });
    });
}

function callers() {
    let recursive = 0;
    forFunctions(6, ({ page, drawing, number, name }, what) => {
        const wanted = plainCallers(samplesOf(page.drawing(number)), name);
        const there = page.view === 'compare' ? plainCallers(samplesOf(page.drawing(1 - number)), name) : null;
        const found = boxesOf(drawing).map((box) => {
            const path = onPath(drawing, box).reverse().map((each) => drawing.name[each]);
            const key = box === 0 ? `function ${name}` : `${isCaller(drawing, box) ? 'up' : 'down'} ${path}`;
            same(drawing.row[box] - drawing.row[0], isCaller(drawing, box) ? 1 - path.length : path.length - 1, `${what}: row of ${key}`);
            if (there) same(drawing.other[box], there.get(key)?.[0] ?? 0, `${what}: the other profile's ${key}`);
            recursive += Number(path.indexOf(name, 1) > 0);
            return [key, [drawing.weight[box], drawing.own[box]]];
        });
        same(found.sort(), [...wanted].sort(), what);
        same([drawing.total, drawing.number, drawing.centre], [page.drawing(number).total, number, name], `${what}: what it is made of`);
        if (found.length > 0) same(Math.min(...drawing.row), 0, `${what}: the first row`);
        isLaidOut(drawing, what);
    });
    holds(recursive > 100, `${recursive} boxes are of functions that call themselves`);
}

// Paths of callers and callees lead to their boxes. What is zoomed of the ones leaves the others as they are.
function sides() {
    forFunctions(3, ({ page, drawing, random }, what) => {
        if (drawing.count === 0) return;
        const zoomed = random.below(drawing.count);
        const span = spanOf(page, drawing, { box: zoomed, source: -1, from: -1 });
        const sideOf = (box) => Math.sign(drawing.row[box] - drawing.row[0]);
        const all = boxesOf(drawing);
        const seen = all.filter((box) => {
            const isOther = sideOf(box) !== sideOf(zoomed) || zoomed === 0;
            const [from, to] = isOther ? [0, drawing.weight[0]] : [span.from, span.to];
            const inside = Math.min(drawing.start[box] + drawing.weight[box], to) - Math.max(drawing.start[box], from);
            same([isInSpan(drawing, box, span), weightInSpan(drawing, box, span)], [inside > 0, Math.max(0, inside)], `${what}: ${box}, ${zoomed} zoomed`);
            same(spanOfRow(drawing, drawing.row[box], span).depth, isOther ? 0 : drawing.depth[zoomed], `${what}: what leads to ${zoomed}`);
            same(boxAt(page, drawing, pathOf(page, drawing, box), -1, isCaller(drawing, box)), box, `${what}: box of the path of ${box}`);
            return inside > 0;
        });
        const rows = seen.map((box) => drawing.row[box]);
        same(rowsInSpan(drawing, span), { first: Math.min(...rows), end: Math.max(...rows) + 1 }, `${what}: rows, ${zoomed} zoomed`);
        for (let row = 0; row < drawing.rowCount; row++) {
            const { from, to } = inRow(drawing, row, span);
            same([...drawing.rows.order.slice(from, to)], seen.filter((box) => drawing.row[box] === row), `${what}: row ${row}, ${zoomed} zoomed`);
        }
        for (const below of [false, true]) keysLead(drawing, span, seen, below, what);
    });
}

// Up and down lead to the box on which one stands, or to the heaviest of those that stand on it.
function keysLead(drawing, span, seen, below, what) {
    const on = (box) => onPath(drawing, box)[1] ?? -1;
    for (const box of seen) {
        for (const [key, turned] of [['ArrowUp', 1], ['ArrowDown', -1]]) {
            const row = drawing.row[box] + (below ? turned : -turned);
            const beside = boxesOf(drawing).filter((each) => drawing.row[each] === row);
            const heaviest = beside.filter((each) => on(each) === box && seen.includes(each))
                .sort((one, other) => drawing.weight[other] - drawing.weight[one] || one - other)[0];
            const wanted = beside.find((each) => each === on(box)) ?? heaviest ?? -1;
            same(boxByKey({ drawing, span, state: { focus: box, below } }, key), wanted, `${what}: ${key} from ${box}, root below ${below}`);
        }
    }
}

function heavy() {
    forPages(10, (page, random, what) => {
        const number = random.below(page.drawingCount);
        const [base, drawing] = [page.drawing(number), page.arranged({ drawing: number, callers: -1, heavy: true })];
        const told = (of) => boxesOf(of).map((box) => [pathOf(page, of, box), of.depth[box], of.row[box], of.weight[box], of.own[box], of.other?.[box]]);
        same(told(drawing).map(String).sort(), told(base).map(String).sort(), `${what}: the boxes`);
        same(drawing.number, number, `${what}: the drawing`);
        isLaidOut(drawing, what);
    });
}

// Of each source with weight what is cut from a chart: for each unit of time the boxes over it, from the root up.
function stacksOf(page, chart) {
    const all = Array.from({ length: chart.total }, () => []);
    for (const box of boxesOf(chart)) {
        for (let unit = chart.start[box]; unit < chart.start[box] + chart.weight[box]; unit++) all[unit].push(box);
    }
    return page.sources.filter(({ weight }) => weight > 0).map(({ start, weight }) => all.slice(start, start + weight));
}

// Does something with the sources of random charts side by side, and their stacks.
function forCharts(count, action) {
    forPages(count, (page, random, what) => {
        if (page.view !== 'chart') return;
        const chart = page.drawing(0);
        const drawing = page.arranged({ drawing: 0, callers: -1, heavy: false, beside: true });
        action({ page, chart, drawing, random, sources: page.sources.filter(({ weight }) => weight > 0), stacks: stacksOf(page, chart) }, what);
    });
}

// A source has each box that is over some of its time, from its first unit there on, and as heavy as it has units. Sources have rows of their own.
function beside() {
    forCharts(6, ({ page, chart, drawing, sources, stacks }, what) => {
        const wanted = [];
        let row = 0;
        stacks.forEach((units, number) => {
            const pieces = [...new Set(units.flat())].map((box) => {
                const own = units.filter((stack) => stack.at(-1) === box).length;
                const start = units.findIndex((stack) => stack.includes(box));
                const name = chart.depth[box] === 0 ? sources[number].name : page.names[chart.name[box]];
                return { box, name, depth: chart.depth[box], row: row + chart.depth[box], start, weight: units.filter((stack) => stack.includes(box)).length, own };
            });
            wanted.push(...pieces.sort((one, other) => one.start - other.start || one.depth - other.depth));
            row += Math.max(...pieces.map(({ depth }) => depth)) + 1;
        });
        const { depth, row: rows, start, weight, own } = drawing;
        const found = boxesOf(drawing).map((box) => ({
            box: boxAt(page, chart, pathOf(page, drawing, box), timeOf(drawing, box), false), name: nameOf(page, drawing, box), depth: depth[box],
            row: rows[box], start: start[box], weight: weight[box], own: own[box],
        }));
        same(found, wanted, what);
        same([drawing.length, drawing.total], [Math.max(...stacks.map((units) => units.length)), chart.total], `${what}: how far they go`);
        same(lanesOf(page, drawing, spanOf(page, drawing, { box: 0, source: -1, from: -1 }), 500), [], `${what}: none stand one after another`);
    });
}

// What may be looked at of sources side by side: all, a source, a part of each, or a box.
function randomLook(page, drawing, random) {
    const nothing = { box: 0, source: -1, from: -1, to: -1 };
    const from = random.below(drawing.length);
    const box = random.below(drawing.count);
    return random.choose([nothing, { ...nothing, source: random.choose([0, 2]) }, { ...nothing, from, to: from + 1 + random.below(drawing.length - from) },
        ...(drawing.depth[box] > 0 ? [{ ...nothing, box }, { ...nothing, box }] : [])]);
}

// Does something with many looks at sources side by side.
function forLooks(action) {
    forCharts(4, (chart, what) => {
        for (let round = 0; round < 8; round++) action({ ...chart, state: randomLook(chart.page, chart.drawing, chart.random) }, what);
    });
}

// Of each source the same part is seen. What is zoomed of one, a box or all of it, has its weights, its rows and its functions there alone.
function bands() {
    let zoomed = 0;
    forLooks(({ page, drawing, state, sources, stacks }, what) => {
        const span = spanOf(page, drawing, state);
        const ofBox = (box) => sources.findLast(({ start }) => timeOf(drawing, box) >= start);
        const chosen = state.source >= 0 ? page.sources[state.source] : state.box > 0 ? ofBox(state.box) : null;
        const about = `${what}, ${JSON.stringify(state)}`;
        const isZoomed = (source) => chosen === null || source === chosen;
        const unitsOf = ({ weight }) => Math.max(0, Math.min(weight, span.to) - span.from);
        const all = sources.filter(isZoomed).reduce((sum, source) => sum + unitsOf(source), 0);
        const seen = boxesOf(drawing).filter((box) => {
            const inside = Math.min(drawing.start[box] + drawing.weight[box], span.to) - Math.max(drawing.start[box], span.from);
            same([isInSpan(drawing, box, span), weightInSpan(drawing, box, span)], [inside > 0, Math.max(0, inside)], `${about}: ${box}`);
            same(zoomedWeight(drawing, drawing.row[box], span), isZoomed(ofBox(box)) ? all : 0, `${about}: what is zoomed of the row of ${box}`);
            const depth = state.box > 0 && ofBox(box) === chosen ? drawing.depth[state.box] : 0;
            same(spanOfRow(drawing, drawing.row[box], span).depth, depth, `${about}: what leads there, beside ${box}`);
            same(boxAt(page, drawing, pathOf(page, drawing, box), timeOf(drawing, box), false), drawing.depth[box] > 0 ? box : 0, `${about}: box of a path`);
            return inside > 0;
        });
        const rows = seen.filter((box) => isZoomed(ofBox(box))).map((box) => drawing.row[box]);
        same(rowsInSpan(drawing, span), { first: Math.min(...rows), end: Math.max(...rows) + 1 }, `${about}: rows`);
        const wanted = page.names.map(() => [0, 0]);
        stacks.forEach((units, number) => units.slice(span.from, span.to).forEach((stack) => {
            const names = isZoomed(sources[number]) ? stack.slice(Math.max(1, span.depth)).map((box) => page.drawing(0).name[box]) : [];
            for (const name of new Set(names)) wanted[name][1]++;
            if (names.length > 0) wanted[names.at(-1)][0]++;
        }));
        const { own, total } = sumsOf(drawing, page.names.length, span);
        page.names.forEach((text, name) => same([own[name], total[name]], wanted[name], `${about}: weights of ${text}`));
        zoomed += Number(chosen !== null);
        const roots = boxesOf(drawing).filter((box) => drawing.depth[box] === 0 && seen.includes(box));
        roots.forEach((focus, at) => {
            const led = ['ArrowLeft', 'ArrowRight', 'Home', 'End'].map((key) => boxByKey({ drawing, span, state: { focus, below: false } }, key));
            same(led, [roots[at - 1] ?? -1, roots[at + 1] ?? -1, roots[0], roots.at(-1)], `${about}: keys from the root ${focus}`);
        });
    });
    holds(zoomed > 3, `${zoomed} of the looks are at one source`);
}

export const TESTS = { callers, sides, heavy, beside, bands };
