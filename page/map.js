// A chart as a map: the wheel, two fingers and keys bring it closer, and a drag moves it.

import { isTimeline } from './drawing.js';
import { moved, widened } from './spans.js';

/**
 * @typedef {import('./viewer.js').Viewer} Viewer
 */

/** @typedef {{ x: number, y: number }} Point */

// How much closer a wheel brings what is seen, for each pixel that it would scroll, and how much a pinch on a touchpad does.
const BY_WHEEL = 0.002;
const BY_TOUCHPAD = 0.01;
// How many pixels a line of a wheel is, and a page.
const WHEEL_UNITS = [1, 16, 400];
// What a key does: how many times as wide what is seen becomes, or by how many widths it moves.
const KEYS = { '+': 1 / 1.5, '=': 1 / 1.5, '-': 1.5, '<': -0.25, '>': 0.25 };
// A pointer that moves less than this, in pixels, drags nothing.
const SHORTEST_DRAG = 4;

/** @type {(viewer: Viewer) => boolean} */
function isMap({ page, view }) {
    return isTimeline(page, view.drawing) && view.drawing.count > 0;
}

// Makes what is seen so many times as wide. What stands there in the window stays there.
/** @type {(viewer: Viewer, across: number, times: number) => void} */
function widen(viewer, across, times) {
    const { left } = viewer.stage.picture.getBoundingClientRect();
    const { span, drawing } = viewer.view;
    viewer.lookAt(widened(span, drawing.length, (across - left) / viewer.stage.picture.clientWidth, times));
}

// Moves what is seen by so many pixels.
/** @type {(viewer: Viewer, across: number, down: number) => void} */
function drag(viewer, across, down) {
    const { span, drawing } = viewer.view;
    const { picture } = viewer.stage;
    picture.scrollTop += down;
    if (across !== 0) viewer.lookAt(moved(span, drawing.length, across / picture.clientWidth));
}

/** @type {(key: string) => key is keyof typeof KEYS} */
export function isMapKey(key) {
    return Object.hasOwn(KEYS, key);
}

/** @type {(viewer: Viewer, key: keyof typeof KEYS) => void} */
export function moveByKey(viewer, key) {
    if (!isMap(viewer)) return;
    const { span, drawing } = viewer.view;
    const isMove = key === '<' || key === '>';
    viewer.lookAt(isMove ? moved(span, drawing.length, KEYS[key]) : widened(span, drawing.length, 0.5, KEYS[key]));
}

/** @type {(viewer: Viewer) => void} */
function listenToWheel(viewer) {
    const { picture } = viewer.stage;
    let [times, across, side, frame] = [1, 0, 0, 0];
    const look = () => {
        frame = 0;
        if (times !== 1) widen(viewer, across, times);
        if (side !== 0) drag(viewer, side, 0);
        [times, side] = [1, 0];
    };
    picture.addEventListener('wheel', (event) => {
        if (!isMap(viewer)) return;
        event.preventDefault();
        const unit = WHEEL_UNITS[event.deltaMode];
        const [right, down] = event.shiftKey ? [event.deltaX + event.deltaY, 0] : [event.deltaX, event.deltaY];
        times *= Math.exp(down * unit * (event.ctrlKey ? BY_TOUCHPAD : BY_WHEEL));
        side += right * unit;
        across = event.clientX;
        if (frame === 0) frame = requestAnimationFrame(look);
    }, { passive: false });
}

// The middle of the pointers, and how far they are from one another.
/** @type {(points: Point[]) => { x: number, y: number, apart: number }} */
function handOf(points) {
    const [first, last] = [points[0], points[points.length - 1]];
    return { x: (first.x + last.x) / 2, y: (first.y + last.y) / 2, apart: Math.max(1, Math.abs(first.x - last.x)) };
}

// One pointer drags what is seen, and two widen it, too.
/** @type {(viewer: Viewer) => void} */
function listenToDrags(viewer) {
    const { picture } = viewer.stage;
    /** @type {Map<number, Point>} */
    const points = new Map();
    let isDragged = false;
    let frame = 0;
    let before = { x: 0, y: 0, apart: 1 };
    const look = () => {
        frame = 0;
        if (points.size === 0) return;
        const now = handOf([...points.values()]);
        if (points.size > 1) widen(viewer, now.x, before.apart / now.apart);
        drag(viewer, before.x - now.x, before.y - now.y);
        before = now;
    };
    picture.addEventListener('pointerdown', (event) => {
        if (!isMap(viewer) || event.button !== 0) return;
        points.set(event.pointerId, { x: event.clientX, y: event.clientY });
        before = handOf([...points.values()]);
        isDragged = points.size > 1;
    });
    picture.addEventListener('pointermove', (event) => {
        const point = points.get(event.pointerId);
        if (!point) return;
        const isShort = Math.hypot(event.clientX - before.x, event.clientY - before.y) < SHORTEST_DRAG;
        if (isShort && !isDragged) return;
        isDragged = true;
        picture.setPointerCapture(event.pointerId);
        points.set(event.pointerId, { x: event.clientX, y: event.clientY });
        if (frame === 0) frame = requestAnimationFrame(look);
    });
    for (const kind of ['pointerup', 'pointercancel']) {
        picture.addEventListener(kind, (event) => {
            if (event instanceof PointerEvent) points.delete(event.pointerId);
            if (points.size > 0) before = handOf([...points.values()]);
        });
    }
}

/** @type {(viewer: Viewer) => void} */
export function listenToMap(viewer) {
    viewer.stage.picture.classList.toggle('map', viewer.page.view === 'chart');
    listenToWheel(viewer);
    listenToDrags(viewer);
}
