// What is looked at, and what changes it.

import { fragmentOf, linkedOf, stepsMade, wordsOf, wordsOfStep, writeAddress } from './address.js';
import { boxLine, placeLine } from './describe.js';
import { boxAt, isCaller, isTimeline, pathOf, sourceOf, timeOf } from './drawing.js';
import { afterPaint, button, element } from './elements.js';
import { Ring, focusIn, focusedFunction } from './focus.js';
import { FunctionTable } from './functions.js';
import { LaneStrip } from './lanes.js';
import { showLists } from './lists.js';
import { nameMatcher, neighbourByWeight, neighbourMatch } from './search.js';
import { isInSpan } from './spans.js';
import { Stage } from './stage.js';
import { Tip } from './tip.js';
import { showTools, showTop } from './tools.js';
import { UNZOOMED, isElsewhere, isOther, isZoomed, viewOf } from './view.js';

/**
 * @typedef {import('./address.js').Words} Words
 * @typedef {import('./data.js').Page} Page
 * @typedef {import('./drawing.js').Drawing} Drawing
 * @typedef {import('./places.js').Place} Place
 * @typedef {import('./view.js').State} State
 * @typedef {import('./view.js').View} View
 */

// How long a part of a chart rests before what looks at all boxes does, in milliseconds.
const REST = 200;
const DEAD_LINK = 'No box here has the path of this address, so all of them are shown.';

export class Viewer {
    /** @param {Page} page */
    constructor(page) {
        this.page = page;
        this.stage = new Stage(page);
        this.ring = new Ring(this.stage.picture);
        this.tip = new Tip();
        /** @type {(text: string) => void} */
        this.pointAt = (text) => {
            this.pointed = text;
            this.showStatus();
        };
        this.lanes = new LaneStrip(page, (source) => this.change({ ...UNZOOMED, source, focus: 0 }, true), this.pointAt);
        this.functions = new FunctionTable(page, (name, isHere) => {
            const { drawing, callers } = this.view.state;
            if (name === callers) this.zoomTo(0);
            else this.showCallers(name, isHere ? drawing : 1 - drawing);
        }, this.pointAt);
        this.matching = nameMatcher(page.names);
        /** @type {Place | null} */
        this.hovered = null;
        // What is said of what is pointed at outside of the picture, and what has to be said until something else is looked at.
        this.pointed = '';
        this.message = '';
        // The path that was asked for, where the drawing has the first part of it only.
        /** @type {{ drawing: Drawing, box: number, path: string[] } | null} */
        this.wished = null;
        // The address with which the last step of the browser's history began.
        this.made = '';
        // What waits until a part of a chart rests: the functions in it, and its address.
        [this.waiting, this.writing] = [0, 0];
        const { state, isDead } = linkedOf(page, wordsOf(location.hash));
        this.view = viewOf(page, this.matching, { ...state, focus: focusIn(page.arranged(state), state, -1) }, null);
        this.showChange(null);
        this.beginStep(isDead);
    }

    // What the line below the picture says: of what is under the pointer, else what has to be said, else of the focused box.
    /** @type {() => string} */
    statusText() {
        const { view, hovered, pointed, message } = this;
        if (hovered) return placeLine(view, hovered);
        return pointed || message || (view.drawing.count > 0 ? boxLine(view, view.state.focus) : '');
    }

    showStatus() {
        element('status').textContent = this.statusText();
    }

    /** @type {(text: string) => void} */
    say(text) {
        this.message = text;
        this.showStatus();
    }

    /** @type {(place: Place | null, event: PointerEvent) => void} */
    hover(place, event) {
        this.hovered = place;
        if (place) this.tip.show(this.view, place, event);
        else this.tip.hide();
        this.showStatus();
    }

    // Nothing is said any more of what was looked at.
    forget() {
        this.hovered = null;
        this.pointed = '';
        this.message = '';
        this.tip.hide();
    }

    paint() {
        this.lanes.show(this.view);
        this.stage.paint(this.view);
        this.showFocus();
    }

    showFocus() {
        this.ring.show(this.view);
        button('callers').disabled = focusedFunction(this.view) < 0;
        this.showStatus();
    }

    refresh() {
        if (this.stage.isStale()) this.paint();
    }

    /** @type {(state: State) => void} */
    look(state) {
        const old = this.view;
        this.view = viewOf(this.page, this.matching, state, old);
        this.showChange(old);
    }

    // Shows the view, where that was looked at before.
    /** @type {(old: View | null) => void} */
    showChange(old) {
        const { page, stage, view } = this;
        const { picture } = stage;
        const { drawing, state } = view;
        this.forget();
        showTools(view);
        if (!old || old.state.lists !== state.lists) showLists(state.lists);
        if (!old || old.state.drawing !== state.drawing) showTop(page, page.drawing(state.drawing), this.pointAt);
        if (!old || isOther(old, view)) this.showFunctionsSoon();
        // Before anything is scrolled what stands above the picture has its room, and the ring stands where there is some.
        this.lanes.show(view);
        stage.makeRoom(view);
        this.showFocus();
        if (state.below !== (old ? old.state.below : false)) picture.scrollTop = state.below ? picture.scrollHeight : 0;
        if (drawing.count > 0 && drawing.centre >= 0 && (!old || old.drawing !== drawing)) stage.centre(view, drawing.row[state.box]);
        else if (!old || isElsewhere(old, view)) this.revealFocus();
        stage.paint(view);
    }

    // Looks at all boxes, so not at each move of the pointer.
    showFunctionsSoon() {
        clearTimeout(this.waiting);
        if (this.view.state.from < 0) afterPaint(() => this.showFunctions());
        else this.waiting = window.setTimeout(() => this.showFunctions(), REST);
    }

    showFunctions() {
        const { view, matching } = this;
        const { find, by } = view.state;
        this.functions.show(view, view.matches && matching(find, by));
    }

    // Looks at another part of a chart. The address is written when it rests.
    /** @type {(part: { from: number, to: number }) => void} */
    lookAt(part) {
        const { state, drawing } = this.view;
        if (!isTimeline(this.page, drawing) || drawing.count === 0) return;
        const isWhole = part.from <= 0 && part.to >= drawing.length;
        this.look({ ...state, ...UNZOOMED, ...(isWhole ? {} : part) });
        clearTimeout(this.writing);
        this.writing = window.setTimeout(() => writeAddress(fragmentOf(this.page, this.view.state), false), REST);
    }

    // Looks at another state. `isStep` says that the browser's history gets a new step.
    /** @type {(changed: Partial<State>, isStep: boolean) => void} */
    change(changed, isStep) {
        clearTimeout(this.writing);
        this.look({ ...this.view.state, ...changed });
        const fragment = fragmentOf(this.page, this.view.state);
        if (isStep) this.made = fragment;
        writeAddress(fragment, isStep);
    }

    revealFocus() {
        const { drawing, state } = this.view;
        if (drawing.count > 0) this.stage.reveal(this.view, drawing.row[state.focus]);
    }

    /** @type {(box: number) => void} */
    zoomTo(box) {
        const { drawing, state } = this.view;
        const source = sourceOf(drawing, box);
        if (source >= 0) this.change({ ...UNZOOMED, source: source === state.source ? -1 : source, focus: box }, true);
        else if (box === state.box && state.source < 0 && state.from < 0) this.change({ focus: box }, false);
        else this.change({ ...UNZOOMED, box, focus: box }, true);
    }

    // The step before, where this page made it, and else the whole.
    goBack() {
        const { view } = this;
        if (!isZoomed(view) && view.state.callers < 0) return;
        if (stepsMade() > 0) history.back();
        else this.change({ ...UNZOOMED, callers: -1, focus: 0 }, true);
    }

    // What calls a function, and what it calls, in that drawing.
    /** @type {(name: number, drawing: number) => void} */
    showCallers(name, drawing) {
        if (name >= 0) this.change({ ...UNZOOMED, callers: name, drawing, focus: 0 }, true);
    }

    showCallersOfFocus() {
        this.showCallers(focusedFunction(this.view), this.view.state.drawing);
    }

    /** @type {(box: number) => void} */
    focusOn(box) {
        this.view = { ...this.view, state: { ...this.view.state, focus: box } };
        this.forget();
        this.revealFocus();
        this.refresh();
        this.showFocus();
    }

    // The same path in another drawing, or in another order. A snapshot may have the first part of it only: the others show all of it again.
    /** @type {(choice: Partial<State>) => void} */
    turnTo(choice) {
        const { page, wished } = this;
        const { state, drawing } = this.view;
        const other = page.arranged({ ...state, ...choice });
        const isWished = wished && wished.drawing === drawing && wished.box === state.box;
        const zoomed = isWished ? wished.path : this.pathTo(state.box);
        /** @type {(path: string[], box: number) => number} */
        const find = (path, from) => (other.count ? boxAt(page, other, path, timeOf(drawing, from), isCaller(drawing, from)) : 0);
        const box = find(zoomed, state.box);
        const isOnBox = state.focus === state.box;
        const focus = isOnBox ? focusIn(other, { source: state.source, box }, box) : find(this.pathTo(state.focus), state.focus);
        this.wished = { drawing: other, box, path: zoomed };
        this.change({ ...choice, box, focus }, false);
    }

    // A path of the profile before, by its box there.
    /** @type {(box: number) => void} */
    showBefore(box) {
        const { page, view } = this;
        const choice = { drawing: 0, callers: -1, heavy: view.state.heavy, beside: false };
        const there = boxAt(page, page.arranged(choice), pathOf(page, page.drawing(0), box), -1, false);
        this.change({ ...UNZOOMED, ...choice, box: there, focus: there }, true);
    }

    /** @type {(box: number) => string[]} */
    pathTo(box) {
        const { drawing } = this.view;
        return drawing.count ? pathOf(this.page, drawing, box) : [];
    }

    // The next match, or the one before.
    /** @type {(isForward: boolean) => void} */
    toMatch(isForward) {
        const { drawing, matches, span, state } = this.view;
        if (!matches) return;
        const { focus, order } = state;
        const box = order === 'weight' ? neighbourByWeight(matches, drawing, focus, isForward) : neighbourMatch(matches, focus, isForward);
        if (box < 0) return;
        if (!isInSpan(drawing, box, span)) this.change({ ...UNZOOMED, focus: box }, true);
        this.focusOn(box);
    }

    // Looks at what an address says. The focus stays where it was, if that is inside of what is zoomed.
    /** @type {(words: Words) => void} */
    arrive(words) {
        const { state, isDead } = linkedOf(this.page, words);
        const drawing = this.page.arranged(state);
        const { focus } = this.view.state;
        this.look({ ...state, focus: focusIn(drawing, state, this.view.drawing === drawing ? focus : -1) });
        this.beginStep(isDead);
    }

    // What is looked at is where a step of the browser's history begins. A dead link is said, and its address becomes that of what is shown.
    /** @type {(isDead: boolean) => void} */
    beginStep(isDead) {
        if (isDead) this.say(DEAD_LINK);
        this.made = fragmentOf(this.page, this.view.state);
        writeAddress(this.made, false);
    }

    // An address that was written by hand, or of another page's link, has no state of the history.
    /** @type {(event: PopStateEvent) => void} */
    goTo(event) {
        const { hash } = location;
        this.arrive(event.state ? wordsOfStep(hash, this.made, fragmentOf(this.page, this.view.state)) : wordsOf(hash));
    }
}
