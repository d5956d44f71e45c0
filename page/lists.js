// The lists beside the picture: as wide as a reader drags them, or closed.

import { element, input, inside } from './elements.js';

// Lists that are dragged to be narrower than this are closed.
const CLOSED_BELOW = 120;

// Shows the lists so wide, 0 for none of them and -1 for as wide as they are at first.
/** @type {(width: number) => void} */
export function showLists(width) {
    const main = inside(document, 'main');
    const divider = element('divider');
    element('lists').hidden = width === 0;
    divider.hidden = width === 0;
    input('listed').checked = width !== 0;
    if (width > 0) main.style.setProperty('--lists', `${width}px`);
    else main.style.removeProperty('--lists');
    divider.setAttribute('aria-valuenow', String(listsWidth()));
}

/** @type {() => number} */
export function listsWidth() {
    return element('lists').offsetWidth;
}

// How wide the lists become that are dragged to be so wide.
/** @type {(dragged: number) => number} */
export function draggedWidth(dragged) {
    return dragged < CLOSED_BELOW ? 0 : Math.round(dragged);
}
