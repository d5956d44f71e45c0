// What stands above the picture: the title, what has to be said, and the tools as they have to stand.

import { hasLanes } from './data.js';
import { button, element, elementOf, input, inside, sayAbout, showItems } from './elements.js';
import { described, shortened } from './names.js';
import { centreText, drawingText, noticesOf, sourceText, summaryText } from './notices.js';
import { isEitherCase } from './search.js';
import { exactText, percentText, separated, weightText } from './units.js';
import { isZoomed } from './view.js';

/**
 * @typedef {import('./data.js').Page} Page
 * @typedef {import('./drawing.js').Drawing} Drawing
 * @typedef {import('./view.js').View} View
 */

// What stands above the tools: the title, how much there is, and what has to be said.
/** @type {(page: Page, drawing: Drawing, say: (text: string) => void) => void} */
export function showTop(page, drawing, say) {
    document.title = shortened(page.title, 200);
    element('title').textContent = described(page.title);
    element('summary').textContent = summaryText(page, drawing);
    showItems(element('notices'), noticesOf(page, drawing));
    element('matched').classList.toggle('filtered', page.isFiltered);
    element('sources').hidden = page.sources.length < 2;
    const sources = inside(element('sources'), 'ul');
    showItems(sources, page.sources.map((source) => sourceText(source, weightText)));
    for (const [number, item] of [...sources.querySelectorAll('li')].entries()) {
        sayAbout(item, () => sourceText(page.sources[number], exactText), say);
    }
}

/** @type {(view: View) => string} */
function matchedText({ page, drawing, matches, isRefused }) {
    if (isRefused) return 'not a regular expression';
    if (!matches) return '';
    const matched = `${separated(matches.boxes.length)} matched`;
    // A sample has callers and callees, and may match in both.
    if (drawing.centre >= 0) return matched;
    return `${matched}, ${percentText(matches.weight, drawing.total)}${page.isFiltered ? ' of what is kept' : ''}`;
}

// The tools as they have to stand in a view. What is being typed is left alone.
/** @type {(view: View) => void} */
export function showTools(view) {
    const { page, state, drawing } = view;
    const name = drawingText(page, drawing, state.drawing);
    const [find, snapshot] = [input('find'), input('snapshot')];
    if (find.value !== state.find) find.value = state.find;
    const by = elementOf('by', HTMLSelectElement);
    by.value = state.by;
    by.options[0].text = isEitherCase(state.find, 'text') ? 'in names, any case' : 'in names, as written';
    elementOf('order', HTMLSelectElement).value = state.order;
    find.setAttribute('aria-invalid', String(view.isRefused));
    element('matched').textContent = matchedText(view);
    button('next').disabled = !view.matches;
    button('previous').disabled = !view.matches;
    button('back').disabled = !isZoomed(view) && state.callers < 0;
    element('heavy-label').hidden = page.view === 'chart';
    input('heavy').checked = state.heavy;
    element('beside-label').hidden = !hasLanes(page);
    input('beside').checked = state.beside;
    element('by-name-label').hidden = page.view === 'compare';
    input('by-name').checked = state.byName;
    for (const arranging of ['heavy', 'beside']) input(arranging).disabled = state.callers >= 0;
    input('below').checked = state.below;
    element('snapshot-label').hidden = page.view === 'compare' || page.drawingCount === 1;
    snapshot.max = String(page.drawingCount - 1);
    snapshot.value = String(state.drawing);
    snapshot.setAttribute('aria-valuetext', name);
    element('before-label').hidden = page.view !== 'compare';
    input('before').checked = state.drawing === 0;
    element('share-label').hidden = page.view !== 'compare';
    input('share').checked = state.share;
    const called = element('drawing-name');
    called.textContent = [name, centreText(page, drawing)].filter((text) => text !== '').join(' · ');
    called.title = called.textContent;
}
