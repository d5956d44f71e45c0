// Reads the data, and shows it. Begin here.

import { pageOf } from './data.js';
import { afterPaint, element, inside } from './elements.js';
import { GoneList } from './gone.js';
import { loadAgainSoon } from './growing.js';
import { listen } from './listening.js';
import { Viewer } from './viewer.js';

/** @typedef {import('./data.js').Page} Page */

/** @type {(page: Page) => void} */
function show(page) {
    element('tools').hidden = false;
    inside(document, 'main').hidden = false;
    afterPaint(() => performance.mark('painted'));
    const viewer = new Viewer(page);
    if (page.view === 'compare') {
        new GoneList(page, (box) => viewer.showBefore(box), viewer.pointAt);
    }
    listen(viewer);
    if (page.hasMore) afterPaint(loadAgainSoon);
}

function openPage() {
    let page;
    try {
        page = pageOf(JSON.parse(element('data').textContent || ''));
    } catch (fault) {
        const why = fault instanceof Error ? fault.message : '';
        element('summary').textContent = `The data of this page cannot be read: ${why}`;
        return;
    }
    show(page);
}

openPage();
