// The table of functions: the weights of each name in what is zoomed, of those that match.

import { comparedTexts, comparedValue, comparisonOf, weightsOf } from './compared.js';
import { upTo } from './drawing.js';
import { button, element, inside, nameButton, sayAbout, withText } from './elements.js';
import { described, nameText, shortened } from './names.js';
import { zoomedPart } from './sums.js';
import { exactText, percentText, separated, weightText } from './units.js';
import { isZoomed, wholeOf } from './view.js';

/**
 * @typedef {import('./compared.js').Comparison} Comparison
 * @typedef {import('./compared.js').Kind} Kind
 * @typedef {import('./data.js').Page} Page
 * @typedef {import('./sums.js').Part} Part
 * @typedef {import('./view.js').View} View
 */

/**
 * What is zoomed, with the weights of each name there, in a comparison those in both profiles too, and the names that are shown.
 * @typedef {{ here: Part, comparison: Comparison | null, all: Int32Array }} FunctionRows
 */

const TABLE_STEP = 100;
/** @type {Kind[]} */
const KINDS = ['own', 'total'];
// What is shown of own and of total weights in a comparison: the first of these that leaves names half of the width.
/** @type {('before' | 'after' | 'change')[][]} */
const CHOICES = [['before', 'after', 'change'], ['after', 'change'], ['change']];

// The rows of the table: the names in what is zoomed, in a comparison those of either profile, and of these those that match.
/** @type {(view: View, matching: Uint8Array | null) => FunctionRows} */
function functionRows(view, matching) {
    const { page, state } = view;
    const comparison = page.view === 'compare' ? comparisonOf(view) : null;
    const parts = comparison ? comparison.parts : [zoomedPart(view)];
    const all = upTo(page.names.length).filter((name) => parts.some(({ total }) => total[name] > 0) && (!matching || matching[name] === 1));
    return { here: comparison ? parts[state.drawing] : parts[0], comparison, all };
}

// What the table is of.
/** @type {(view: View, isMatching: boolean) => string} */
function headingText(view, isMatching) {
    const { page, state } = view;
    const ofBox = state.from >= 0 ? ' in this part' : ' in this box';
    const part = state.source >= 0 ? ` in ${shortened(page.sources[state.source].name, 60)}` : ofBox;
    return `Functions${isZoomed(view) ? part : ''}${isMatching ? ' that match' : ''}`;
}

// The cells of own or of total weights in a comparison: each has a weight, and percents below.
/** @type {(comparison: Comparison, name: number, kind: Kind) => HTMLTableCellElement[]} */
function comparedCells(comparison, name, kind) {
    const texts = comparedTexts(comparison, name, kind);
    return CHOICES[0].map((column) => {
        const cell = document.createElement('td');
        cell.className = column;
        cell.append(...texts[column].map((text) => withText('span', text)));
        return cell;
    });
}

export class FunctionTable {
    // `onChoose` is told the name that is clicked, and whether the drawing has it, and `say` the exact weights of what is pointed at.
    /**
     * @param {Page} page
     * @param {(name: number, isHere: boolean) => void} onChoose
     * @param {(text: string) => void} say
     */
    constructor(page, onChoose, say) {
        this.page = page;
        this.onChoose = onChoose;
        this.say = say;
        const isCompared = page.view === 'compare';
        this.section = element('functions');
        this.table = inside(this.section, 'table');
        this.body = inside(this.table, 'tbody');
        this.more = button('functions-more');
        element('lists').classList.toggle('compared', isCompared);
        for (const row of this.table.querySelectorAll('thead tr')) if (row.classList.contains('of-comparison') !== isCompared) row.remove();
        this.heads = [...this.table.querySelectorAll('th')];
        this.sort = { key: isCompared ? 'own-change' : 'own', isRising: false };
        /** @type {string | null} */
        this.marked = null;
        const none = new Float64Array(0);
        /** @type {FunctionRows} */
        this.rows = { here: { own: none, total: none, whole: 0 }, comparison: null, all: new Int32Array(0) };
        /** @type {number[]} */
        this.sorted = [];
        for (const { dataset, firstElementChild: sorting } of this.heads) {
            const { key } = dataset;
            if (key && sorting) sorting.addEventListener('click', () => this.sortBy(key));
        }
        this.more.addEventListener('click', () => this.showMore());
        new ResizeObserver(() => requestAnimationFrame(() => this.fit())).observe(this.section);
    }

    // Shows the functions of what is zoomed, of those that match. A name that is searched for as a whole is marked, or the one whose callers are
    // looked at, and the others stay.
    /** @type {(seen: View, matching: Uint8Array | null) => void} */
    show(seen, matching) {
        const view = wholeOf(seen);
        const { callers, by, find } = seen.state;
        const isMarked = matching !== null && by === 'name';
        this.marked = callers >= 0 ? view.page.names[callers] : isMarked ? find : null;
        this.rows = functionRows(view, isMarked ? null : matching);
        if (this.rows.comparison) this.nameChanges(view.isShare);
        element('functions-title').textContent = headingText(view, matching !== null && !isMarked);
        this.showSorted();
    }

    // A change of shares is one in points of percents.
    /** @type {(isShare: boolean) => void} */
    nameChanges(isShare) {
        for (const kind of KINDS) {
            const sorting = inside(this.table, `[data-key="${kind}-change"] button`);
            sorting.textContent = isShare ? 'Points' : 'Change';
            sorting.setAttribute('aria-label', isShare ? `${kind} points` : `${kind} change`);
        }
    }

    // Sorts by a column, and by the same the other way round.
    /** @type {(key: string) => void} */
    sortBy(key) {
        const isRising = this.sort.key === key ? !this.sort.isRising : key === 'name';
        this.sort = { key, isRising };
        this.showSorted();
    }

    showSorted() {
        const { key, isRising } = this.sort;
        this.sorted = this.sortedNames(key, isRising);
        this.body.replaceChildren();
        for (const head of this.heads) {
            if (head.dataset.key !== key) head.removeAttribute('aria-sort');
            else head.setAttribute('aria-sort', isRising ? 'ascending' : 'descending');
        }
        this.showMore();
    }

    /** @type {(key: string, isRising: boolean) => number[]} */
    sortedNames(key, isRising) {
        const { names } = this.page;
        const all = Array.from(this.rows.all);
        const turned = isRising ? 1 : -1;
        if (key === 'name') return all.sort((one, other) => (names[one] < names[other] ? -turned : turned));
        const values = new Map(all.map((name) => [name, this.valueOf(name, key)]));
        /** @type {(name: number) => number} */
        const value = (name) => values.get(name) || 0;
        return all.sort((one, other) => (value(one) === value(other) ? one - other : turned * (value(one) - value(other))));
    }

    // The number in the column of that key.
    /** @type {(name: number, key: string) => number} */
    valueOf(name, key) {
        const { here, comparison } = this.rows;
        return comparison ? comparedValue(comparison, name, key) : here[key === 'own' ? 'own' : 'total'][name];
    }

    showMore() {
        const { body, more, sorted } = this;
        const shown = body.children.length;
        for (const name of sorted.slice(shown, shown + TABLE_STEP)) body.append(this.row(name));
        more.hidden = body.children.length >= sorted.length;
        more.textContent = `Show more of ${separated(sorted.length)}`;
        this.fit();
    }

    // Shows as many columns of a comparison as leave names their room. What has no room even then is scrolled to beside the names.
    fit() {
        const { table, section, heads, rows } = this;
        const fits = () => table.offsetWidth <= section.clientWidth;
        for (const shown of rows.comparison ? CHOICES : []) {
            table.dataset.shown = shown.join(' ');
            for (const head of heads) if (head.scope === 'colgroup') head.colSpan = shown.length;
            if (fits()) break;
        }
        section.classList.toggle('scrolled', !fits());
    }

    /** @type {(name: number) => HTMLTableRowElement} */
    row(name) {
        const { names } = this.page;
        const { here, comparison } = this.rows;
        const chosen = nameButton(nameText(names[name]), () => this.onChoose(name, here.total[name] > 0));
        chosen.title = described(names[name]);
        const first = document.createElement('td');
        first.append(chosen);
        const row = document.createElement('tr');
        if (names[name] === this.marked) row.setAttribute('aria-current', 'true');
        sayAbout(row, () => this.exactLine(name), this.say);
        row.append(first, ...KINDS.flatMap((kind) => (comparison ? comparedCells(comparison, name, kind) : this.weightCells(here[kind][name]))));
        return row;
    }

    // A weight, and its part of what is zoomed.
    /** @type {(weight: number) => HTMLTableCellElement[]} */
    weightCells(weight) {
        const { unit } = this.page;
        return [weightText(weight, unit), percentText(weight, this.rows.here.whole)].map((text) => withText('td', text));
    }

    // What the line below the picture says of a function: its name and its exact weights.
    /** @type {(name: number) => string} */
    exactLine(name) {
        const { here, comparison } = this.rows;
        /** @type {(weight: number) => string} */
        const told = (weight) => exactText(weight, this.page.unit);
        /** @type {(kind: Kind) => string} */
        const weights = (kind) => {
            if (!comparison) return `${kind} ${told(here[kind][name])}`;
            const { before, after } = weightsOf(comparison, name, kind);
            return `${kind} before ${told(before)} · after ${told(after)}`;
        };
        return [shortened(this.page.names[name], 300) || '(empty name)', ...KINDS.map(weights)].join(' · ');
    }
}
