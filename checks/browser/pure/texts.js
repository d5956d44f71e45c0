// Tests of texts and colours: each function against a plain definition.

import { fragmentOf, linkedOf, wordsOf, wordsOfStep } from './page/address.js';
import { ticksOf } from './page/axis.js';
import { LIGHT, changeShade, nameShade, packageShade } from './page/colours.js';
import { FONT, Lettering, PAD } from './page/lettering.js';
import { beginning, shortened, visible } from './page/names.js';
import { formsOf } from './page/short.js';
import { changeText, commonUnit, differenceText, exactText, percentText, separated, weightText } from './page/units.js';
import { forPages, holds, randomOf, same } from './random.js';

const CHARACTERS = ['a', 'b', ' ', 'é', '😀', '\u202e', '\0', '\u4f60', '\ud83d', '\n'];

function randomText(random, most) {
    return Array.from({ length: random.below(most) }, () => random.choose(CHARACTERS)).join('');
}

function names() {
    const random = randomOf(2);
    for (let round = 0; round < 300; round++) {
        const [text, most] = [randomText(random, 12), 1 + random.below(12)];
        const found = beginning(text, most);
        // Whole characters, as many as fit.
        let wanted = '';
        for (const character of text) {
            if (text.startsWith(wanted + character) && (wanted + character).length <= most) wanted += character;
            else break;
        }
        // A text may be cut off behind half of a character that was alone there already.
        if (/^[^\ud800-\udfff]*$/.test(text.replace(/😀/g, ''))) same(found, wanted, `the first ${most} of ${text}`);
        holds(found.length <= most && text.startsWith(found), `the first ${most} of ${text}: ${found}`);
        same(shortened(text, most), visible(found) + (found === text ? '' : '…'), `${text} shortened to ${most}`);
        const shown = [...text].map((character) => ({ '\0': '[U+0000]', '\n': '[U+000A]', '\u202e': '[U+202E]' })[character] ?? character);
        same(visible(text), shown.join(''), `what is seen of ${text}`);
    }
}

// The number that a text begins with.
function numberIn(text) {
    return Number(text.replace(/^about /, '').replace('−', '-').replaceAll(',', '').match(/^[-+]?[0-9.]+/)[0]);
}

// Whether a text begins with the number, to so many digits, and to the whole where it has more before the point.
function isRounded(text, number, digits) {
    const step = Math.abs(number) >= 999.5 ? 1 : 10 ** (Math.floor(Math.log10(Math.abs(number))) - digits + 1);
    const found = numberIn(text);
    return Math.abs(found - number) <= 0.5000001 * step && (Math.abs(found) >= 999.5 || Number(found.toPrecision(digits)) === found);
}

const STEPS = {
    nanoseconds: { ns: 1, 'µs': 1e3, ms: 1e6, s: 1e9 }, milliseconds: { ns: 1e-6, 'µs': 1e-3, ms: 1, s: 1e3 }, seconds: { s: 1 },
    bytes: { B: 1, KiB: 2 ** 10, MiB: 2 ** 20, GiB: 2 ** 30, TiB: 2 ** 40 }, kilobytes: { KiB: 1, MiB: 2 ** 10, GiB: 2 ** 20, TiB: 2 ** 30 },
};

// Whole numbers of nanoseconds that end in a 5, where three digits are rounded up.
function halves() {
    const random = randomOf(9);
    for (let round = 0; round < 500; round++) {
        const [tens, power] = [10 * (100 + random.below(899)) + 5, 3 * (1 + random.below(2))];
        const [begin, end] = [String((tens + 5) / 10), ['', '', '', 'µs', '', '', 'ms'][power]];
        same(weightText((tens * 10 ** power) / 100, 'nanoseconds'), `${begin.slice(0, 2)}.${begin.slice(2)} ${end}`.replace('.0 ', ' '), `half of ${tens}`);
    }
}

function units() {
    halves();
    const random = randomOf(3);
    for (let round = 0; round < 2000; round++) {
        const weight = Math.floor(10 ** (random.next() * 14));
        const digits = String(weight).replace(/(?<=[0-9])(?=([0-9]{3})+$)/g, ',');
        same([separated(weight), weightText(weight, ''), weightText(weight, 'count')], [digits, digits, digits], 'a plain number');
        same(weightText(weight, 'samples'), `${digits} samples`, 'a number with a unit of its own');
        const unit = random.choose(Object.keys(STEPS));
        const text = weightText(weight, unit);
        const [, sign] = text.match(/^[0-9.,]+ (.+)$/);
        const size = STEPS[unit][sign];
        holds(isRounded(text, weight / size, 3), `${weight} ${unit} as ${text}`);
        holds(numberIn(text) >= 1, `${weight} ${unit} as ${text}: a step too large`);
        const isSmall = numberIn(text) < (sign.endsWith('B') ? 1024 : 1000);
        holds(isSmall || ['s', 'TiB'].includes(sign), `${weight} ${unit} as ${text}: a step too small`);
        const exact = exactText(weight, unit);
        same(exact, text.startsWith(digits) ? text : `${text} (${digits} ${unit})`, `${weight} ${unit}, exactly`);
        const whole = weight + Math.floor(10 ** (random.next() * 14));
        same([differenceText(weight, whole, unit), differenceText(whole, weight, unit)],
             ['+', '−'].map((sign) => (whole > weight ? sign : '') + weightText(whole - weight, unit)), `${weight} and ${whole} ${unit}`);
        const percent = (100 * weight) / whole;
        const texts = [percentText(weight, whole), changeText(whole, weight), changeText(weight, whole)];
        holds(isRounded(texts[0], percent, percent < 1 ? 2 : 3), `${weight} of ${whole} as ${texts[0]}`);
        holds(isRounded(texts[1], (100 * (weight - whole)) / whole, 3), `from ${whole} to ${weight} as ${texts[1]}`);
        holds(isRounded(texts[2], (100 * (whole - weight)) / weight, 3), `from ${weight} to ${whole} as ${texts[2]}`);
    }
    same([changeText(3, 3), changeText(0, 3), changeText(3, 0), percentText(0, 0)], ['±0%', 'new', 'gone', '0%'], 'at the ends');
    const sources = [{ unit: 'bytes', weight: 1 }, { unit: '', weight: 0 }, { unit: 'bytes', weight: 2 }, { unit: 'seconds', weight: 3 }];
    same([commonUnit(sources.slice(0, 3)), commonUnit(sources), commonUnit([])], ['bytes', null, ''], 'the unit of all sources');
}

// The ticks of an axis: all multiples of a round step that have room, and no smaller step would leave room between them.
function axis() {
    const random = randomOf(6);
    let many = 0;
    for (let round = 0; round < 1500; round++) {
        const unit = random.choose(['', 'count', 'samples', ...Object.keys(STEPS)]);
        const from = random.choose([0, Math.floor(10 ** (random.next() * 12))]);
        const to = from + 1 + Math.floor(10 ** (random.next() * 12));
        const width = 50 + random.below(2000);
        const sign = unit in STEPS ? weightText(to, unit).split(' ')[1] : unit === 'count' ? '' : unit;
        const size = unit in STEPS ? STEPS[unit][sign] : 1;
        const textOf = (number, power) => {
            const [whole, rest] = number.toFixed(Math.max(0, -power)).split('.');
            return [whole.replace(/(?<=[0-9])(?=([0-9]{3})+$)/g, ','), ...(rest ? [rest] : [])].join('.') + (sign ? ` ${sign}` : '');
        };
        const across = (number) => ((number * size - from) * width) / (to - from);
        const wide = (power) => 7.5 * textOf(to / size, power).length;
        let [power, times] = [-12, 1];
        const step = () => Number(`${times}e${power}`);
        while (across(step()) - across(0) < wide(power) + 24 || step() * size < 1) {
            times = { 1: 2, 2: 5, 5: 1 }[times];
            if (times === 1) power++;
        }
        const wanted = [];
        for (let each = Math.ceil(from / size / step()); across(each * step()) + wide(power) <= width; each++) wanted.push(each * step());
        const found = ticksOf({ view: 'chart', unit }, { centre: -1, count: 1 }, { from, to, depth: 0, row: 0 }, width);
        const about = `${from} to ${to} ${unit} on ${width}`;
        same(found.map(({ text }) => text), wanted.map((number) => textOf(number, power)), about);
        found.forEach(({ left }, tick) => holds(Math.abs(left - across(wanted[tick])) < 1e-6 * width, `${about}: tick ${tick} at ${left}`));
        many += Number(found.length > 3);
    }
    holds(many > 500, `${many} axes have more than three ticks`);
    same(ticksOf({ view: 'graph', unit: '' }, { centre: -1, count: 1 }, { from: 0, to: 9, depth: 0, row: 0 }, 900), [], 'a graph goes by no time');
}

// The place of a name's colour, with whole numbers of any size.
function plainShade(name) {
    let hash = 0n;
    for (const [, code, character] of encodeURIComponent(name).matchAll(/%(..)|([^%])/g)) {
        hash = (hash * 31n + BigInt(code ? parseInt(code, 16) : character.charCodeAt(0))) % 2n ** 32n;
    }
    return Number((((hash * 2654435769n) % 2n ** 32n) / 65536n) % 108n);
}

function colours() {
    const random = randomOf(4);
    for (let round = 0; round < 500; round++) {
        const name = randomText(random, 30).toWellFormed();
        same(nameShade(name), plainShade(name), `the shade of ${name}`);
        // The hue is that of the package, and the step of lightness that of the name.
        const packaged = `${name.replace(/\s/g, '')}.f${round}`;
        const [own, its] = [plainShade(packaged), plainShade(packaged.slice(0, packaged.lastIndexOf('.')) || packaged)];
        same(packageShade(packaged), own - (own % 36) + (its % 36), `the shade of ${packaged} by its package`);
        same(packageShade(`f${round}`), plainShade(`f${round}`), `the shade of f${round}, which has no package`);
        const [before, after] = [random.below(50), random.below(50)];
        // Each tenth of the larger weight is a shade.
        let tenths = 0;
        while (tenths * Math.max(before, after) < 10 * Math.abs(after - before)) tenths++;
        same(changeShade(before, after), 10 + (after > before ? tenths : -tenths), `the shade of ${before} to ${after}`);
    }
    LIGHT.plain.forEach((fill, number) => same(fill, `hsl(${(number % 36) * 10}, 48%, ${74 + 4 * Math.floor(number / 36)}%)`, `shade ${number}`));
    same([LIGHT.plain.length, LIGHT.changes.length], [108, 21], 'how many shades there are');
    const { plain, changes, joined, joinedMatch, root, dim, match } = LIGHT;
    same(new Set([...plain, ...changes, joined, joinedMatch, root, dim, match]).size, 134, 'all shades differ');
}

// A box that may be zoomed: the root of a source that stands beside others is none, since a source is zoomed as such.
function boxBelow(drawing, random) {
    const box = random.below(drawing.count);
    return drawing.bands.some(({ first }) => first === box) ? 0 : box;
}

function address() {
    forPages(12, (page, random, what) => {
        same(linkedOf(page, wordsOf('#share=1')).state.share, page.view === 'compare', `${what}: shares are of comparisons`);
        same(linkedOf(page, wordsOf('#colours=name')).state.byName, page.view !== 'compare', `${what}: comparisons have colours of changes`);
        same(linkedOf(page, wordsOf('#heavy=1')).state.heavy, page.view !== 'chart', `${what}: charts go by time`);
        same(linkedOf(page, wordsOf('#beside=1')).state.beside, page.view === 'chart', `${what}: sources of charts stand side by side`);
        for (let round = 0; round < 20; round++) {
            const number = random.below(page.drawingCount);
            const heavy = page.view !== 'chart' && random.below(2) === 0;
            const called = random.below(2) ? random.below(page.names.length) : -1;
            const beside = page.view === 'chart' && random.below(2) === 0;
            const callers = called >= 0 && page.arranged({ drawing: number, callers: called, heavy, beside }).count > 0 ? called : -1;
            const asked = linkedOf(page, wordsOf(`#callers=${encodeURIComponent(page.names[called] ?? 'nothing')}&drawing=${number}`));
            same([asked.state.callers, asked.isDead], [callers, callers < 0], `${what}: callers of ${page.names[called]}`);
            const drawing = page.arranged({ drawing: number, callers, heavy, beside });
            const source = page.view === 'chart' && callers < 0 && random.below(4) === 0 ? random.choose([0, 2]) : -1;
            const find = random.choose(['', 'a', 'é&=#%', ' \u2028/']);
            const isPart = page.view === 'chart' && callers < 0 && source < 0 && random.below(3) === 0 && drawing.length > 2;
            const [from, to] = isPart ? [random.below(1000 * (drawing.length - 2)) / 1000, drawing.length - random.below(1000) / 1000] : [-1, -1];
            const state = {
                drawing: number, callers, heavy, beside, source, box: source >= 0 || isPart ? 0 : boxBelow(drawing, random), from, to, find,
                by: find === '' ? 'text' : random.choose(['text', 'name', 'regexp']), order: random.choose(['place', 'weight']),
                below: random.below(2) === 0,
                lists: random.choose([-1, 0, 9999, random.below(2000)]), share: page.view === 'compare' && random.below(2) === 0,
                byName: page.view !== 'compare' && random.below(2) === 0,
            };
            const fragment = fragmentOf(page, { ...state, focus: 0 });
            holds(/^#[\x21-\x7e]*$/.test(fragment), `${what}: ${fragment}`);
            same(linkedOf(page, wordsOf(fragment)), { state, isDead: false }, `${what}: ${fragment}`);
            const dead = fragment.replace(/(zoom|up)=([^&]*)/, '$1=$2/nothing');
            if (dead !== fragment) same(linkedOf(page, wordsOf(dead)), { state: { ...state, box: 0 }, isDead: true }, `${what}: ${dead}`);
            const turned = { find: 'z', order: 'weight', below: !state.below, lists: 300, share: !state.share, heavy: !state.heavy, beside: !beside, byName: !state.byName };
            const other = fragmentOf(page, { ...state, ...turned, box: 0, source: -1, from: -1, to: -1, focus: 0 });
            const [made, now] = [wordsOf(fragment), wordsOf(other)];
            const wanted = { zoom: 'main', from: '1', find: 'q', drawing: '0', root: 'below' };
            for (const key of ['find', 'by', 'order', 'drawing', 'root', 'lists', 'share', 'heavy', 'beside', 'colours']) {
                if (made.get(key) !== now.get(key)) wanted[key] = now.get(key);
            }
            if (made.get('beside') !== now.get('beside')) delete wanted.from;
            same([...wordsOfStep('#zoom=main&from=1&find=q&drawing=0&root=below', fragment, other)],
                 Object.entries(wanted).filter(([, value]) => value !== undefined), `${what}: a step back from ${other}, made as ${fragment}`);
        }
    });
}

function lettering() {
    const random = randomOf(5);
    const context = document.createElement('canvas').getContext('2d');
    context.font = FONT;
    const wide = (text) => context.measureText(text).width;
    const all = ['', 'a', 'main', 'some::rather::long::name<of, some>', 'été', '\u4f60\u597d\u4e16\u754c', '😀'.repeat(8), 'WWWWiiii',
        'x'.repeat(3000), 'a\u202eb', 'net/\u4f60.(*conn).serve'];
    const made = new Lettering(all, formsOf);
    let cut = 0;
    for (let round = 0; round < 1500; round++) {
        const [name, added, width] = [random.below(all.length), random.choose(['', '+12%']), random.next() * 300];
        const forms = formsOf(all[name]).map(visible);
        const room = width - 2 * PAD;
        // A form that is longer and one that is the longest to fit.
        const whole = [...(forms.find((form) => wide(form) <= room) ?? forms.at(-1))];
        const found = made.textFor(name, added, width);
        const about = `${all[name].slice(0, 40)} and ${added} in ${width}: ${found.slice(0, 60)}`;
        // A letter more or less than a hair of a pixel decides may be either.
        holds(found === '' || wide(found) <= room + 0.01, `${about}: too wide`);
        if (room < 2 * wide('0') - 0.01) same(found, '', about);
        else if (wide(whole.join('')) <= room - 0.01) {
            const both = `${whole.join('')} ${added}`;
            const isAdded = added !== '' && whole.join('') === forms[0] && wide(both) <= room;
            same(found, isAdded ? both : whole.join(''), `${about}: fits`);
        } else if (found !== whole.join('')) {
            const count = [...found].length - 1;
            holds(found === '' || found === `${whole.slice(0, count).join('')}…`, `${about}: a front of the name`);
            holds(wide(`${whole.slice(0, Math.max(count, 0) + 1).join('')}…`) > room - 0.01, `${about}: one more fits`);
            cut++;
        }
    }
    holds(cut > 100, `${cut} are cut`);
}

export const TESTS = { names, units, axis, colours, address, lettering };
