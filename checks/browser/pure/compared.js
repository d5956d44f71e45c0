// What the table of a comparison has, compared with sums over all samples on random small inputs.

import { boxesOf, forPages, holds, onPath, same } from './random.js';
import { comparedTexts, comparedValue, comparisonOf, weightsOf } from './page/compared.js';
import { pathOf } from './page/drawing.js';
import { nameMatcher } from './page/search.js';
import { zoomedPart } from './page/sums.js';
import { changeText, percentText, weightText } from './page/units.js';
import { viewOf } from './page/view.js';

const NOTHING = { source: -1, from: -1, to: -1, find: '', by: 'text', callers: -1, heavy: false, beside: false, box: 0 };

// Of each name the samples that end in it, and those that have it, among those that begin with a path: the last name of that is in what is zoomed.
function plainPart(page, drawing, path) {
    const [own, total] = [0, 0].map(() => page.names.map(() => 0));
    let whole = 0;
    for (const box of boxesOf(drawing)) {
        const names = onPath(drawing, box).slice(0, -1).reverse().map((each) => drawing.name[each]);
        if (path.some((name, at) => page.names[names[at]] !== name)) continue;
        whole += drawing.own[box];
        const inside = names.slice(Math.max(0, path.length - 1));
        if (inside.length > 0) own[inside.at(-1)] += drawing.own[box];
        for (const name of new Set(inside)) total[name] += drawing.own[box];
    }
    return { own, total, whole };
}

// Does something with looks at comparisons: at all or at a box, of either profile, the heaviest first or not, by weights or by shares.
function forLooks(action) {
    let lost = 0;
    forPages(12, (page, random, what) => {
        if (page.view !== 'compare') return;
        for (let round = 0; round < 8; round++) {
            const state = { ...NOTHING, drawing: random.below(2), heavy: random.below(2) === 1, share: random.below(2) === 1 };
            const drawing = page.arranged(state);
            const box = random.below(3) ? random.below(drawing.count) : 0;
            const view = viewOf(page, nameMatcher(page.names), { ...state, box }, null);
            const path = pathOf(page, drawing, box);
            const parts = [0, 1].map((number) => plainPart(page, page.drawing(number), path));
            lost += Number(parts.some(({ whole }) => whole === 0));
            action({ page, view, parts, random }, `${what}, ${state.drawing ? 'after' : 'before'}${state.share ? ' by shares' : ''} at ${path.join(' › ')}`);
        }
    });
    holds(lost > 3, `${lost} of the looks are at what only one profile has`);
}

function compared() {
    forLooks(({ page, view, parts }, what) => {
        const comparison = comparisonOf(view);
        same(comparison.parts.map(({ whole }) => whole), parts.map(({ whole }) => whole), `${what}: what is zoomed weighs`);
        const wholes = parts.map(({ whole }, number) => (view.isShare ? page.drawing(number).total : whole));
        page.names.forEach((text, name) => {
            for (const kind of ['own', 'total']) {
                const [before, after] = parts.map((part) => part[kind][name]);
                const about = `${what}: ${kind} of ${text}`;
                same(weightsOf(comparison, name, kind), { before, after }, about);
                const [first, second] = view.isShare ? [before * wholes[1], after * wholes[0]] : [before, after];
                const found = ['before', 'after', 'change', 'percent'].map((column) => comparedValue(comparison, name, `${kind}-${column}`));
                same(found.map(String), [first, second, second - first, (second - first) / first].map(String), `${about}, by what it is sorted`);
                const sign = second > first ? '+' : second < first ? '−' : '';
                const points = percentText(Math.abs(after / wholes[1] - before / wholes[0]), 1);
                const change = sign + (view.isShare ? points : weightText(Math.abs(after - before), page.unit));
                const lines = { before: [weightText(before, page.unit), percentText(before, wholes[0])], after: [weightText(after, page.unit),
                    percentText(after, wholes[1])], change: [change, changeText(first, second)] };
                same(comparedTexts(comparison, name, kind), lines, `${about}, what is written`);
            }
        });
    });
}

// The same of a page that compares nothing, and of the profile that is looked at: what is zoomed, and what all of that weighs.
function zoomed() {
    forLooks(({ view, parts: wanted }, what) => {
        const { own, total, whole } = zoomedPart(view);
        same({ own: [...own], total: [...total], whole }, wanted[view.state.drawing], what);
    });
    forPages(10, (page, random, what) => {
        if (page.view === 'compare') return;
        const drawing = page.drawing(0);
        const all = { ...NOTHING, drawing: 0, share: false };
        const source = page.view === 'chart' ? 2 : -1;
        const box = random.below(drawing.count);
        const begin = random.below(drawing.total);
        const looks = [[all, drawing.total], [{ ...all, box }, drawing.weight[box]],
            ...(source < 0 ? [] : [[{ ...all, source }, page.sources[source].weight], [{ ...all, from: begin, to: drawing.total }, drawing.total - begin]])];
        for (const [state, whole] of looks) {
            const found = zoomedPart(viewOf(page, nameMatcher(page.names), state, null));
            same(found.whole, whole, `${what}: what is zoomed weighs, ${JSON.stringify(state)}`);
        }
    });
}

export const TESTS = { compared, zoomed };
