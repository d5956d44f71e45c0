// Tests of where boxes stand: each function against a plain definition that looks at all boxes.

import { firstPlace, nextPlace } from './page/bisect.js';
import { boxesTold } from './page/columns.js';
import { bothWeights, boxAt, comparedOf, pathOf } from './page/drawing.js';
import { goneOf } from './page/gone.js';
import { placeOver, placesOf, weighedTogether } from './page/places.js';
import { ROW_HEIGHT, rowAt, rowTop, rowsOf } from './page/rows.js';
import { isEitherCase, matchesIn, matchesOf, nameMatcher, neighbourByWeight, neighbourMatch } from './page/search.js';
import { edgesOf, inRow, isInSpan, lanesOf, moved, rowsInSpan, spanOf, weightInSpan, widened } from './page/spans.js';
import { sumsOf } from './page/sums.js';
import { boxesOf, columnsOf, forPages, holds, onPath, randomOf, randomSpan, same, toldOf } from './random.js';

function bisect() {
    const random = randomOf(1);
    for (let round = 0; round < 300; round++) {
        const [low, size, edge] = [random.below(5), random.below(70), random.below(80)];
        const isHeld = (place) => place >= edge;
        let wanted = low;
        while (wanted < low + size && !isHeld(wanted)) wanted++;
        same(firstPlace(low, low + size, isHeld), wanted, 'firstPlace');
        if (size > 0) same(nextPlace(low, low + size, isHeld), wanted, 'nextPlace');
    }
}

// All boxes of random trees, and those that weigh enough.
function columns() {
    for (let seed = 0; seed < 40; seed++) {
        const all = columnsOf(randomOf(seed), seed % 2 === 0);
        for (const least of [0, 2, 6, 100]) {
            const [depth, start, weight, own] = ['depth', 'start', 'weight', 'own'].map((key) => all[key].filter((_, box) => all.weight[box] >= least));
            const found = boxesTold(toldOf({ depth, start, weight, own }));
            const numbers = [found.depth, found.start, found.weight, found.own].map((column) => [...column]);
            same(numbers, [depth, start, weight, own], `tree ${seed}, of at least ${least}`);
        }
    }
}

function rows() {
    forPages(10, (page, random, what) => {
        const drawing = page.drawing(0);
        const some = boxesOf(drawing).filter(() => random.below(2) === 0);
        for (const [boxes, made] of [[boxesOf(drawing), drawing.rows], [some, rowsOf(drawing.depth, drawing.rowCount, some)]]) {
            for (let row = 0; row < drawing.rowCount; row++) {
                const found = [...made.order.slice(made.first[row], made.first[row + 1])];
                same(found, boxes.filter((box) => drawing.depth[box] === row), `${what}, row ${row}`);
            }
        }
        for (const below of [false, true]) {
            const tops = boxesOf(drawing).slice(0, drawing.rowCount).map((row) => rowTop(drawing.rowCount, row, below));
            same(tops.slice().sort((one, other) => one - other), tops.map((_, place) => place * ROW_HEIGHT), `${what}: rows stand on each other`);
            same(tops[0] < (tops[1] ?? Infinity) || tops.length < 2, !below || tops.length < 2, `${what}: where the root is`);
            tops.forEach((top, row) => same(rowAt(drawing.rowCount, top + random.below(ROW_HEIGHT), below), row, `${what}: the row at a height`));
        }
    });
}

function nesting() {
    forPages(10, (page, random, what) => {
        const drawing = page.drawing(page.drawingCount - 1);
        for (const box of boxesOf(drawing)) {
            const path = onPath(drawing, box);
            const after = boxesOf(drawing).find((each) => each > box && drawing.depth[each] <= drawing.depth[box]);
            same([drawing.parent[box], drawing.end[box]], [path[1] ?? -1, after ?? drawing.count], `${what}, box ${box}`);
            const names = path.slice(0, -1).reverse().map((each) => page.names[drawing.name[each]]);
            same(pathOf(page, drawing, box), names, `${what}, path of ${box}`);
            same(boxAt(page, drawing, names, drawing.start[box], false), box, `${what}, box of the path of ${box}`);
            same(boxAt(page, drawing, [...names, 'nothing', 'main'], drawing.start[box], false), box, `${what}, the last on the way`);
        }
        const before = boxesOf(drawing).map((box) => bothWeights(drawing, box).before);
        same(before, Array.from(page.view === 'compare' ? drawing.other : drawing.weight), `${what}: weights before`);
    });
}

// Shares of both wholes, as fractions: their order and their quotient are those of what is compared.
function shares() {
    forPages(10, (page, random, what) => {
        if (page.view !== 'compare') return;
        const wholes = [0, 1].map((number) => page.drawing(number).total);
        for (let round = 0; round < 50; round++) {
            const weights = { before: random.below(wholes[0] + 1), after: random.below(wholes[1] + 1) };
            same(comparedOf(page, false, weights), weights, `${what}: weights`);
            const { before, after } = comparedOf(page, true, weights);
            const [first, second] = [weights.before / wholes[0], weights.after / wholes[1]];
            same([before > after, before === 0, after === 0], [first > second, first === 0, second === 0], `${what}: which share is larger`);
            if (first > 0) holds(Math.abs(after / before - second / first) < 1e-12 * (second / first) + 1e-300, `${what}: ${before} and ${after}`);
        }
        const none = { ...page, drawing: (number) => (number === 0 ? { total: 0 } : page.drawing(1)) };
        same(comparedOf(none, true, { before: 0, after: 3 }), { before: 0, after: 3 }, `${what}: shares of nothing`);
    });
}

// How many units of weight there are from one to another for which something holds.
function countOf(from, to, isCounted) {
    let count = 0;
    for (let unit = from; unit < to; unit++) count += Number(isCounted(unit));
    return count;
}

function spans() {
    forPages(4, (page, random, what) => {
        const drawing = page.drawing(0);
        const span = randomSpan(drawing, random);
        const covers = (box, unit) => unit >= drawing.start[box] && unit < drawing.start[box] + drawing.weight[box];
        const seen = new Set();
        for (const box of boxesOf(drawing)) {
            const inside = countOf(span.from, span.to, (unit) => covers(box, unit));
            same(weightInSpan(drawing, box, span), inside, `${what}: weight of ${box} in the span`);
            same(isInSpan(drawing, box, span), inside > 0, `${what}: whether ${box} is in the span`);
            if (inside > 0) seen.add(box);
            const { left, right } = edgesOf(drawing.start[box], drawing.start[box] + drawing.weight[box], span, 500);
            const before = countOf(span.from, span.to, (unit) => unit < drawing.start[box]);
            const wanted = [before, before + inside].map((units) => (500 * units) / (span.to - span.from));
            holds(Math.abs(left - wanted[0]) + Math.abs(right - wanted[1]) < 1e-9, `${what}: edges of ${box}: ${left} to ${right}, wanted ${wanted}`);
        }
        for (let row = 0; row < drawing.rowCount; row++) {
            const { from, to } = inRow(drawing, row, span);
            const wanted = boxesOf(drawing).filter((box) => drawing.depth[box] === row && seen.has(box));
            same([...drawing.rows.order.slice(from, to)], wanted, `${what}: boxes of row ${row} in the span`);
        }
        const rowsSeen = new Set([...seen].map((box) => drawing.depth[box]));
        same(rowsInSpan(drawing, span), { first: 0, end: rowsSeen.size }, `${what}: rows in the span`);
        const numbers = page.sources.map((_, number) => number);
        const isSeen = ({ start, weight }) => countOf(span.from, span.to, (unit) => unit >= start && unit < start + weight) > 0;
        same(lanesOf(page, drawing, span, 500).map((lane) => lane.number), page.view === 'chart' ? numbers.filter((each) => isSeen(page.sources[each])) : [],
             `${what}: sources in the span`);
        const box = random.below(drawing.count);
        const { start, weight } = page.sources[0];
        const depth = drawing.depth[box];
        const covered = { from: drawing.start[box], to: drawing.start[box] + drawing.weight[box], depth, row: depth };
        same(spanOf(page, drawing, { box, source: -1, from: -1 }), covered, `${what}: span of ${box}`);
        same(spanOf(page, drawing, { box: 0, source: -1, from: 1, to: 3 }), { from: 1, to: 3, depth: 0, row: 0 }, `${what}: span of a part`);
        same(spanOf(page, drawing, { box, source: 0 }), { from: start, to: start + weight, depth: 0, row: 0 }, `${what}: span of a source`);
    });
}

// A part of a chart that is widened or moved: what stands at the place stays there, unless the part would begin or end outside of all.
function parts() {
    const random = randomOf(7);
    for (let round = 0; round < 2000; round++) {
        const total = 1 + Math.floor(10 ** (random.next() * 13));
        const off = total < 1e9 ? 0.0011 : 1.1;
        const from = Math.floor(random.next() * (total - 1));
        const span = { from, to: from + 1 + Math.floor(random.next() * (total - from - 1)) };
        const [place, times] = [random.next(), 2 ** (4 * random.next() - 2)];
        const wide = widened(span, total, place, times);
        const width = Math.min(total, Math.max(1, (span.to - span.from) * times));
        const about = `${JSON.stringify(span)} of ${total}, ${times} times as wide at ${place}: ${JSON.stringify(wide)}`;
        holds(wide.from >= 0 && wide.to <= total && wide.to - wide.from > 0.999, `${about}: outside`);
        holds(Math.abs(wide.to - wide.from - width) <= 2 * off, `${about}: its width`);
        const [before, after] = [span.from + place * (span.to - span.from), wide.from + place * width];
        const isAtEdge = wide.from <= off || wide.to >= total - off;
        holds(isAtEdge || Math.abs(before - after) <= 2 * off, `${about}: ${before} becomes ${after}`);
        const by = 4 * random.next() - 2;
        const away = moved(span, total, by);
        const begin = Math.max(0, Math.min(total - (span.to - span.from), span.from + by * (span.to - span.from)));
        holds(Math.abs(away.from - begin) <= off && Math.abs(away.to - begin - (span.to - span.from)) <= off, `${about}: moved by ${by}`);
        holds(away.from >= 0 && away.to <= total, `${about}: moved outside`);
    }
}

// The places of a row by their meaning: neighbours are together where both are narrower than a pixel and begin in the same.
function plainPlaces(drawing, row, span, width) {
    const scale = width / (span.to - span.from);
    const groups = [];
    for (const box of boxesOf(drawing)) {
        const [start, end] = [drawing.start[box], drawing.start[box] + drawing.weight[box]];
        if (drawing.depth[box] !== row || start >= span.to || end <= span.from) continue;
        const [left, right] = [Math.max(0, (start - span.from) * scale), Math.min(width, (end - span.from) * scale)];
        const pixel = right - left < 1 ? Math.floor(left) : -1;
        const last = groups.at(-1);
        if (last && pixel >= 0 && last.pixel === pixel) Object.assign(last, { boxes: [...last.boxes, box], right });
        else groups.push({ pixel, boxes: [box], left, right });
    }
    return groups;
}

function places() {
    let joined = 0;
    forPages(20, (page, random, what) => {
        const drawing = page.drawing(0);
        for (const width of [3, 12, 40, 368, 1182]) {
            const span = randomSpan(drawing, random);
            for (let row = 0; row < drawing.rowCount; row++) {
                const wanted = plainPlaces(drawing, row, span, width);
                const found = placesOf(drawing, row, span, width);
                const boxes = found.map(({ at, count }) => [...drawing.rows.order.slice(at, at + count)]);
                same(boxes, wanted.map((group) => group.boxes), `${what}, row ${row}, width ${width}: boxes`);
                same(found.map((place) => place.box), boxes.map((group) => group[0]), `${what}, row ${row}: first boxes`);
                same(found.map(({ left, right }) => [left, right]), wanted.map(({ left, right }) => [left, right]), `${what}, row ${row}: edges`);
                joined += boxes.filter((group) => group.length > 1).length;
                found.forEach((place, each) => same(weighedTogether(drawing, place, (box) => drawing.weight[box]),
                                                    boxes[each].reduce((sum, box) => sum + drawing.weight[box], 0), `${what}: weights together`));
            }
        }
    });
    holds(joined > 500, `${joined} places have several boxes`);
}

// Does something with many rows of places.
function forRows(action) {
    forPages(12, (page, random, what) => {
        const drawing = page.drawing(0);
        for (const width of [3, 12, 40, 368, 1182]) {
            const span = randomSpan(drawing, random);
            for (let row = 0; row < drawing.rowCount; row++) {
                action(placesOf(drawing, row, span, width), width, random, `${what}, row ${row}, width ${width}`);
            }
        }
    });
}

function painting() {
    forRows((row, width, random, what) => {
        let painted = 0;
        for (const { left, right, begin, end } of row) {
            const isSharp = right - left >= 3;
            const about = `${what}: ${left} to ${right} is painted from ${begin} to ${end}`;
            holds(begin >= painted && end > begin, `${about}, behind ${painted}`);
            holds(Math.abs(begin - left) <= 1, `${about}: the left edge`);
            if (isSharp) holds(Number.isInteger(begin) && Number.isInteger(end) && Math.abs(end + 1 - right) <= 0.5, `${about}: sharp edges`);
            else holds(end >= right && end <= Math.max(right, Math.floor(left) + 1), `${about}: the right edge`);
            if (painted <= Math.floor(left)) holds(end - begin >= 0.29, `${about}: too narrow`);
            painted = end;
        }
    });
}

// The place over a point by its meaning: what is painted there, else what is painted further right in the same pixel, else what ends in the pixel
// or has its line of paper there.
function plainOver(row, across) {
    const pixel = Math.floor(across);
    return row.find(({ begin, end }) => begin <= across && end > across)
        ?? row.find(({ begin }) => begin > across && begin < pixel + 1)
        ?? row.findLast(({ begin, end, right }) => begin <= across && Math.max(end, Math.round(right)) > pixel) ?? null;
}

function pointer() {
    forRows((row, width, random, what) => {
        for (const place of row) same(placeOver(row, (place.begin + place.end) / 2), place, `${what}: the middle of ${place.begin} to ${place.end}`);
        for (let round = 0; round < 20; round++) {
            const across = random.below(2) ? random.below(width) : random.next() * width;
            same(placeOver(row, across), plainOver(row, across), `${what}: at ${across}`);
        }
    });
}

// The matches behind and before a box by weight: those of the others that are lighter, or as heavy and come later, and those that are not.
function plainByWeight(drawing, matches, box) {
    const isBefore = (one, other) => drawing.weight[one] > drawing.weight[other] || (drawing.weight[one] === drawing.weight[other] && one < other);
    const first = (those) => those.find((one) => those.every((other) => other === one || isBefore(one, other)));
    const last = (those) => those.find((one) => those.every((other) => other === one || isBefore(other, one)));
    const isMatch = matches.includes(box);
    const behind = first(matches.filter((each) => isMatch && isBefore(box, each))) ?? first(matches);
    return [behind ?? -1, last(matches.filter((each) => isMatch && isBefore(each, box))) ?? last(matches) ?? -1];
}

function search() {
    forPages(12, (page, random, what) => {
        const drawing = page.drawing(0);
        const [find, by] = [random.choose(['a', 'r', 'Read', 'e', 'b', '%', '.']), random.choose(['text', 'name'])];
        const isFound = (text) => text.includes(find) || (find === find.toLowerCase() && text.toLowerCase().includes(find));
        const isNamed = (text) => (by === 'name' ? text === find : isFound(text));
        const isMatch = (box) => drawing.depth[box] > 0 && isNamed(page.names[drawing.name[box]]);
        const names = nameMatcher(page.names)(find, by);
        const matches = matchesOf(drawing, names);
        const wanted = boxesOf(drawing).filter(isMatch);
        same([matches.boxes, boxesOf(drawing).filter(matches.isMatch)], [wanted, wanted], `${what}: what matches ${find}`);
        const weight = boxesOf(drawing).reduce((sum, box) => sum + (onPath(drawing, box).some(isMatch) ? drawing.own[box] : 0), 0);
        same(matches.weight, weight, `${what}: the weight of what matches`);
        for (const box of boxesOf(drawing)) {
            const next = wanted.find((each) => each > box) ?? wanted[0] ?? -1;
            const last = wanted.findLast((each) => each < box) ?? wanted.at(-1) ?? -1;
            same([neighbourMatch(matches, box, true), neighbourMatch(matches, box, false)], [next, last], `${what}: matches beside ${box}`);
            const found = [true, false].map((isForward) => neighbourByWeight(matches, drawing, box, isForward));
            same(found, plainByWeight(drawing, wanted, box), `${what}: matches beside ${box} by weight`);
        }
        const span = randomSpan(drawing, random);
        for (let row = 0; row < drawing.rowCount; row++) {
            for (const place of placesOf(drawing, row, span, 50)) {
                const boxes = [...drawing.rows.order.slice(place.at, place.at + place.count)];
                same(matchesIn(matches, drawing, place), boxes.filter(isMatch).length, `${what}: matches of a place`);
            }
        }
    });
    same(nameMatcher(['a'])('(', 'regexp'), null, 'no regular expression');
    same([isEitherCase('ab', 'text'), isEitherCase('aB', 'text'), isEitherCase('ab', 'regexp')], [true, false, false], 'either case');
    same([...nameMatcher(['aab', 'ab', 'b'])('^a+b$', 'regexp')], [1, 1, 0], 'a regular expression');
}

// The names over each unit of weight in the span, by its stack there: the last has it as its own.
function functions() {
    forPages(16, (page, random, what) => {
        const drawing = page.drawing(0);
        const span = random.below(2) ? randomSpan(drawing, random) : spanOf(page, drawing, { box: 0, source: -1, from: -1 });
        const { own, total } = sumsOf(drawing, page.names.length, span);
        const wanted = page.names.map(() => [0, 0]);
        for (let unit = span.from; unit < span.to; unit++) {
            const stack = boxesOf(drawing).filter((box) => drawing.start[box] <= unit && unit < drawing.start[box] + drawing.weight[box]);
            const names = stack.filter((box) => drawing.depth[box] > 0 && drawing.depth[box] >= span.depth).map((box) => drawing.name[box]);
            for (const name of new Set(names)) wanted[name][1]++;
            if (names.length > 0) wanted[names.at(-1)][0]++;
        }
        page.names.forEach((text, name) => same([own[name], total[name]], wanted[name], `${what}: weights of ${text}`));
    });
}

function gone() {
    forPages(10, (page, random, what) => {
        if (page.view !== 'compare') return;
        const drawing = page.drawing(0);
        const isGone = (box) => drawing.other[box] === 0;
        const roots = boxesOf(drawing).filter((box) => isGone(box) && !onPath(drawing, box).slice(1).some(isGone));
        const { boxes, rest } = goneOf(drawing);
        same(boxes.slice().sort((one, other) => one - other), roots, `${what}: what is gone, and its caller is not`);
        same(boxes.length + rest, boxesOf(drawing).filter(isGone).length, `${what}: how many are gone`);
        boxes.slice(1).forEach((box, place) => {
            holds(drawing.weight[boxes[place]] >= drawing.weight[box], `${what}: ${boxes[place]} is before ${box}`);
        });
    });
}

export const TESTS = { bisect, columns, rows, nesting, shares, spans, parts, places, painting, pointer, search, functions, gone };
