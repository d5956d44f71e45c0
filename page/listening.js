// The tools, the keys and the pointer, and what they change.

import { button, element, elementOf, input } from './elements.js';
import { boxByKey } from './focus.js';
import { draggedWidth, listsWidth, showLists } from './lists.js';
import { isMapKey, listenToMap, moveByKey } from './map.js';
import { isJoined } from './places.js';
import { savePng, saveSvg } from './saving.js';
import { svgOf } from './svg.js';

/**
 * @typedef {import('./viewer.js').Viewer} Viewer
 */

// How long typing has to rest until what was typed is searched for, in milliseconds.
const TYPING = 150;
// By how much a key makes the lists wider, in pixels.
const WIDTH_STEP = 20;
// How far the pointer may move while it is pressed, in pixels: the end of a drag is no click.
const LONGEST_CLICK = 4;

/** @type {(viewer: Viewer) => void} */
function listenToSearch(viewer) {
    const find = input('find');
    const [by, order] = ['by', 'order'].map((id) => elementOf(id, HTMLSelectElement));
    let waiting = 0;
    const search = () => {
        clearTimeout(waiting);
        const { state } = viewer.view;
        if (find.value !== state.find || by.value !== state.by) viewer.change({ find: find.value, by: by.value }, false);
    };
    find.addEventListener('input', () => {
        clearTimeout(waiting);
        waiting = window.setTimeout(search, TYPING);
    });
    by.addEventListener('change', search);
    order.addEventListener('change', () => viewer.change({ order: order.value }, false));
    element('search').addEventListener('submit', (event) => {
        event.preventDefault();
        search();
        viewer.toMatch(true);
    });
    button('previous').addEventListener('click', () => viewer.toMatch(false));
    find.addEventListener('keydown', (event) => {
        const isPrevious = event.key === 'Enter' && event.shiftKey;
        const isCleared = event.key === 'Escape' && find.value !== '';
        if (!isPrevious && !isCleared) return;
        event.preventDefault();
        if (isCleared) find.value = '';
        search();
        if (isPrevious) viewer.toMatch(false);
    });
}

// For paper the picture is drawn anew as SVG.
/** @type {(viewer: Viewer) => void} */
function listenToPrint(viewer) {
    const paper = element('paper');
    window.addEventListener('beforeprint', () => {
        const text = svgOf(viewer.stage.wholeScene(viewer.view, true), true);
        paper.replaceChildren(new DOMParser().parseFromString(text, 'image/svg+xml').documentElement);
    });
    window.addEventListener('afterprint', () => paper.replaceChildren());
    button('print').addEventListener('click', () => window.print());
}

/** @type {(viewer: Viewer) => void} */
function listenToTools(viewer) {
    const [below, snapshot, before, share] = ['below', 'snapshot', 'before', 'share'].map(input);
    const [heavy, beside, byName] = ['heavy', 'beside', 'by-name'].map(input);
    button('back').addEventListener('click', () => viewer.goBack());
    below.addEventListener('change', () => viewer.change({ below: below.checked }, false));
    snapshot.addEventListener('input', () => viewer.turnTo({ drawing: Number(snapshot.value) }));
    before.addEventListener('change', () => viewer.turnTo({ drawing: before.checked ? 0 : 1 }));
    heavy.addEventListener('change', () => viewer.turnTo({ heavy: heavy.checked }));
    beside.addEventListener('change', () => viewer.turnTo({ beside: beside.checked, from: -1, to: -1 }));
    button('callers').addEventListener('click', () => viewer.showCallersOfFocus());
    byName.addEventListener('change', () => viewer.change({ byName: byName.checked }, false));
    share.addEventListener('change', () => viewer.change({ share: share.checked }, false));
    const scene = () => viewer.stage.wholeScene(viewer.view, false);
    button('save-svg').addEventListener('click', () => saveSvg(scene()));
    button('save-png').addEventListener('click', () => savePng(scene(), (text) => viewer.say(text)));
}

// The lists are closed and opened, and as wide as they are dragged.
/** @type {(viewer: Viewer) => void} */
function listenToLists(viewer) {
    const divider = element('divider');
    const listed = input('listed');
    /** @type {(width: number) => void} */
    const widen = (width) => viewer.change({ lists: draggedWidth(width) }, false);
    let [dragged, begin] = [-1, 0];
    listed.addEventListener('change', () => viewer.change({ lists: listed.checked ? -1 : 0 }, false));
    divider.addEventListener('pointerdown', (event) => {
        divider.setPointerCapture(event.pointerId);
        [dragged, begin] = [listsWidth(), event.clientX];
        event.preventDefault();
    });
    divider.addEventListener('pointermove', (event) => {
        if (dragged >= 0) showLists(draggedWidth(dragged + begin - event.clientX) || 1);
    });
    divider.addEventListener('pointerup', (event) => {
        if (dragged >= 0 && event.clientX !== begin) widen(dragged + begin - event.clientX);
        dragged = -1;
    });
    divider.addEventListener('keydown', (event) => {
        const steps = event.key === 'ArrowLeft' ? 1 : event.key === 'ArrowRight' ? -1 : 0;
        if (steps === 0 || isForBrowser(event)) return;
        event.preventDefault();
        widen(listsWidth() + steps * WIDTH_STEP);
    });
}

/** @type {(viewer: Viewer) => void} */
function listenToPointer(viewer) {
    const { picture } = viewer.stage;
    let frame = 0;
    /** @type {PointerEvent | null} */
    let pressed = null;
    picture.addEventListener('pointermove', (event) => viewer.hover(viewer.stage.placeUnder(viewer.view, event), event));
    picture.addEventListener('pointerleave', (event) => viewer.hover(null, event));
    picture.addEventListener('pointerdown', (event) => { pressed = event; });
    picture.addEventListener('click', (event) => {
        const moved = pressed ? Math.hypot(event.clientX - pressed.clientX, event.clientY - pressed.clientY) : 0;
        const place = viewer.stage.placeUnder(viewer.view, event);
        pressed = null;
        if (!place || isJoined(place) || moved > LONGEST_CLICK) return;
        // A finger hovers over nothing, so its first tap names a box, and the second zooms.
        const isNaming = event instanceof PointerEvent && event.pointerType === 'touch' && place.box !== viewer.view.state.focus;
        if (isNaming) viewer.focusOn(place.box);
        else viewer.zoomTo(place.box);
    });
    picture.addEventListener('scroll', () => {
        cancelAnimationFrame(frame);
        frame = requestAnimationFrame(() => viewer.refresh());
    });
}

/** @type {(event: KeyboardEvent) => boolean} */
function isForBrowser(event) {
    return event.ctrlKey || event.metaKey || event.altKey;
}

/** @type {(viewer: Viewer) => void} */
function listenToKeys(viewer) {
    viewer.stage.picture.addEventListener('keydown', (event) => {
        const { view } = viewer;
        if (view.drawing.count === 0 || isForBrowser(event)) return;
        if (event.key === 'Enter') viewer.zoomTo(view.state.focus);
        else if (event.key === 'c') viewer.showCallersOfFocus();
        else if (isMapKey(event.key)) moveByKey(viewer, event.key);
        else if (/^(Arrow|Home|End)/.test(event.key)) {
            const box = boxByKey(view, event.key);
            if (box >= 0) viewer.focusOn(box);
        } else return;
        event.preventDefault();
    });
    document.addEventListener('keydown', (event) => {
        const at = event.target instanceof Element ? event.target : document.body;
        if (event.key === 'Escape' && !event.defaultPrevented && !at.matches('select')) viewer.goBack();
        if (event.key !== '/' || at.matches('input[type="search"], select') || isForBrowser(event)) return;
        event.preventDefault();
        input('find').focus();
    });
}

// Has a viewer do what a reader asks for.
/** @type {(viewer: Viewer) => void} */
export function listen(viewer) {
    listenToSearch(viewer);
    listenToPrint(viewer);
    listenToTools(viewer);
    listenToLists(viewer);
    listenToPointer(viewer);
    listenToMap(viewer);
    listenToKeys(viewer);
    window.addEventListener('popstate', (event) => viewer.goTo(event));
    new ResizeObserver(() => viewer.refresh()).observe(viewer.stage.picture);
    viewer.stage.darkness.addEventListener('change', () => viewer.paint());
}
