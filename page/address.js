// What is looked at, in the fragment of the page's address, so that a link shows the same.

import { hasLanes } from './data.js';
import { boxAt, isCaller, isTimeline, pathOf, timeOf } from './drawing.js';

/**
 * @typedef {import('./data.js').Choice} Choice
 * @typedef {import('./data.js').Page} Page
 * @typedef {import('./drawing.js').Drawing} Drawing
 * @typedef {import('./view.js').State} State
 */

/**
 * What a link says: a state but for its focus, and whether it names a box that is not there. Then all is shown.
 * @typedef {{ state: Omit<State, 'focus'>, isDead: boolean }} Linked
 */

/** @typedef {Map<string, string>} Words */

const LONGEST_PATH = 4000;
// In a page that grows a number will be that of another box or name. Browsers take addresses of 2 MB.
const LONGEST_GROWING_PATH = 400000;
const WIDEST_LISTS = 10000;

/** @type {(text: string) => string} */
function decoded(text) {
    try {
        return decodeURIComponent(text);
    } catch {
        return text;
    }
}

// Half of a surrogate pair has no code of its own.
/** @type {(text: string) => string} */
function encoded(text) {
    return encodeURIComponent(new TextDecoder('utf-8', { ignoreBOM: true }).decode(new TextEncoder().encode(text)));
}

/** @type {(page: Page) => number} */
function longestPath(page) {
    return page.hasMore ? LONGEST_GROWING_PATH : LONGEST_PATH;
}

// The part of the fragment that names the zoomed box: its path, up from a function or down, and in a chart its start too; a very long path by the
// box's number.
/** @type {(page: Page, drawing: Drawing, state: State) => string[]} */
function zoomWords(page, drawing, state) {
    if (state.source >= 0) return [`source=${state.source}`];
    if (state.from >= 0) return [`from=${state.from}`, `to=${state.to}`];
    if (state.box === 0) return [];
    const path = pathOf(page, drawing, state.box);
    const length = path.reduce((sum, name) => sum + name.length, 0);
    const longest = longestPath(page);
    const zoom = length > longest ? '' : path.map(encoded).join('/');
    if (length > longest || zoom.length > 3 * longest) return [`box=${state.box}`];
    if (isCaller(drawing, state.box)) return [`up=${zoom}`];
    return isTimeline(page, drawing) ? [`zoom=${zoom}`, `start=${timeOf(drawing, state.box)}`] : [`zoom=${zoom}`];
}

// The part of the fragment that names the function whose callers are looked at; a very long name by its number.
/** @type {(page: Page, name: number) => string} */
function callersWord(page, name) {
    const text = page.names[name];
    return text.length > longestPath(page) ? `function=${name}` : `callers=${encoded(text)}`;
}

/** @type {(page: Page, state: State) => string} */
export function fragmentOf(page, state) {
    const words = zoomWords(page, page.arranged(state), state);
    if (state.callers >= 0) words.unshift(callersWord(page, state.callers));
    if (state.find !== '') words.push(`find=${encoded(state.find)}`);
    if (state.find !== '' && state.by !== 'text') words.push(`by=${state.by}`);
    if (state.order !== 'place') words.push(`order=${state.order}`);
    if (state.drawing !== page.drawingCount - 1) words.push(`drawing=${state.drawing}`);
    if (state.below !== page.isBelow) words.push(state.below ? 'root=below' : 'root=above');
    if (state.lists >= 0) words.push(`lists=${state.lists}`);
    if (state.share !== page.isShare) words.push(state.share ? 'share=1' : 'share=0');
    if (state.heavy) words.push('heavy=1');
    if (state.beside) words.push('beside=1');
    if (state.byName) words.push('colours=name');
    return `#${words.join('&')}`;
}

// The part of a chart that the words name, of nothing -1.
/** @type {(words: Words, length: number) => { from: number, to: number }} */
function partOfWords(words, length) {
    const [from, to] = ['from', 'to'].map((key) => (/^[0-9]{1,15}(\.[0-9]{1,3})?$/.test(words.get(key) || '') ? Number(words.get(key)) : -1));
    return from >= 0 && to - from > 0.999 && to <= length ? { from, to } : { from: -1, to: -1 };
}

// The number that a text is, where that is below the limit, else -1.
/** @type {(text: string | undefined, limit: number) => number} */
function wholeNumber(text, limit) {
    return /^[0-9]{1,15}$/.test(text || '') && Number(text) < limit ? Number(text) : -1;
}

/** @type {(fragment: string) => Words} */
export function wordsOf(fragment) {
    const words = new Map();
    for (const word of fragment.replace(/^#/, '').split('&')) {
        const place = word.indexOf('=');
        if (place > 0) words.set(word.slice(0, place), word.slice(place + 1));
    }
    return words;
}

// The words of a step to which the browser's history goes. What was set without a step of its own stays as it is now: a search that was
// typed, the order of its matches, the drawing, where the root is, the width of the lists, whether shares are compared, whether heavy boxes come
// first, whether sources stand side by side, and what colours are by. `made` is the fragment that the step before began with.
/** @type {(fragment: string, made: string, now: string) => Words} */
export function wordsOfStep(fragment, made, now) {
    const words = wordsOf(fragment);
    const [wordsMade, wordsNow] = [wordsOf(made), wordsOf(now)];
    for (const key of ['find', 'by', 'order', 'drawing', 'root', 'lists', 'share', 'heavy', 'beside', 'colours']) {
        const kept = wordsNow.get(key);
        if (wordsMade.get(key) === kept) continue;
        // A number of a box is one of its own drawing, in its order, and a part is one of a timeline.
        if (['drawing', 'heavy', 'beside'].includes(key)) words.delete('box');
        if (key === 'beside') words.delete('from');
        if (kept === undefined) words.delete(key);
        else words.set(key, kept);
    }
    return words;
}

// The box that the words of a fragment name, the root where they name none, or -1 where there is no such box.
/** @type {(page: Page, drawing: Drawing, words: Words) => number} */
function boxOfWords(page, drawing, words) {
    const isUp = words.has('up');
    const zoom = words.get(isUp ? 'up' : 'zoom');
    if (zoom === undefined) return words.has('box') ? wholeNumber(words.get('box'), drawing.count) : 0;
    const path = zoom.split('/').map(decoded);
    const box = boxAt(page, drawing, path, Number(words.get('start') || -1), isUp);
    return drawing.depth[box] === path.length ? box : -1;
}

// The drawing that the words name, and whether there is none with the function whose callers they ask for.
/** @type {(page: Page, words: Words) => { choice: Choice, isLost: boolean }} */
function choiceOfWords(page, words) {
    const number = wholeNumber(words.get('drawing'), page.drawingCount);
    const drawing = number >= 0 ? number : page.drawingCount - 1;
    const heavy = page.view !== 'chart' && words.get('heavy') === '1';
    const choice = { drawing, callers: -1, heavy, beside: hasLanes(page) && words.get('beside') === '1' };
    const name = words.get('callers');
    if (name === undefined && !words.has('function')) return { choice, isLost: false };
    const callers = name === undefined ? wholeNumber(words.get('function'), page.names.length) : page.names.indexOf(decoded(name));
    const isLost = callers < 0 || page.arranged({ ...choice, callers }).count === 0;
    return { choice: isLost ? choice : { ...choice, callers }, isLost };
}

// The state that the words of a fragment stand for. What is not understood is left out.
/** @type {(page: Page, words: Words) => Linked} */
export function linkedOf(page, words) {
    const { choice, isLost } = choiceOfWords(page, words);
    const isSourced = page.view === 'chart' && choice.callers < 0;
    const source = isSourced ? wholeNumber(words.get('source'), page.sources.length) : -1;
    const drawing = page.arranged(choice);
    const box = isLost ? -1 : boxOfWords(page, drawing, words);
    const by = words.get('by');
    const state = {
        ...choice,
        source: source >= 0 && page.sources[source].weight > 0 ? source : -1,
        box: Math.max(0, box),
        ...(isSourced ? partOfWords(words, drawing.length) : { from: -1, to: -1 }),
        find: decoded(words.get('find') || ''),
        by: by === 'name' || by === 'regexp' ? by : 'text',
        order: words.get('order') === 'weight' ? 'weight' : 'place',
        below: page.isBelow ? words.get('root') !== 'above' : words.get('root') === 'below',
        lists: wholeNumber(words.get('lists'), WIDEST_LISTS),
        share: page.view === 'compare' && (page.isShare ? words.get('share') !== '0' : words.get('share') === '1'),
        byName: page.view !== 'compare' && words.get('colours') === 'name',
    };
    return { state, isDead: box < 0 };
}

// How many steps of the browser's history this page made before the one that is looked at.
/** @type {() => number} */
export function stepsMade() {
    return history.state?.steps || 0;
}

// Writes the fragment, as a new step of the browser's history or in place of the last.
/** @type {(fragment: string, isStep: boolean) => void} */
export function writeAddress(fragment, isStep) {
    const address = fragment === '#' && location.hash === '' ? '' : fragment;
    try {
        if (isStep) history.pushState({ steps: stepsMade() + 1 }, '', address);
        else history.replaceState({ steps: stepsMade() }, '', address);
    } catch {
        // A document without an address of its own has no fragment. It works without a history.
    }
}
