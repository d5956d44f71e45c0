// Elements of the document. What comes from the data only ever becomes their text.

/** @type {(id: string) => HTMLElement} */
export function element(id) {
    return elementOf(id, HTMLElement);
}

// The element with that name, which is of that kind.
/**
 * @template {HTMLElement} T
 * @type {(id: string, kind: new () => T) => T}
 */
export function elementOf(id, kind) {
    const found = document.getElementById(id);
    if (!(found instanceof kind)) throw new TypeError(`there is no ${id}`);
    return found;
}

/** @type {(id: string) => HTMLInputElement} */
export function input(id) {
    return elementOf(id, HTMLInputElement);
}

/** @type {(id: string) => HTMLButtonElement} */
export function button(id) {
    return elementOf(id, HTMLButtonElement);
}

// The first element inside of another that fits.
/** @type {(outer: ParentNode, selector: string) => HTMLElement} */
export function inside(outer, selector) {
    const found = outer.querySelector(selector);
    if (!(found instanceof HTMLElement)) throw new TypeError(`there is no ${selector}`);
    return found;
}

/**
 * @template {keyof HTMLElementTagNameMap} T
 * @type {(tag: T, text: string) => HTMLElementTagNameMap[T]}
 */
export function withText(tag, text) {
    const made = document.createElement(tag);
    made.textContent = text;
    return made;
}

/** @type {(text: string, action: () => void) => HTMLButtonElement} */
export function nameButton(text, action) {
    const made = withText('button', text);
    made.type = 'button';
    made.addEventListener('click', action);
    return made;
}

// Has something said while the pointer or the focus is on an element, and nothing after that.
/** @type {(on: HTMLElement, textOf: () => string, say: (text: string) => void) => void} */
export function sayAbout(on, textOf, say) {
    for (const kind of ['pointerenter', 'focusin']) on.addEventListener(kind, () => say(textOf()));
    for (const kind of ['pointerleave', 'focusout']) on.addEventListener(kind, () => say(''));
}

/** @type {(list: HTMLElement, texts: string[]) => void} */
export function showItems(list, texts) {
    list.replaceChildren(...texts.map((text) => withText('li', text)));
}

/** @type {(canvas: HTMLCanvasElement) => CanvasRenderingContext2D} */
export function contextOf(canvas) {
    const context = canvas.getContext('2d');
    if (!context) throw new TypeError('this browser paints on no canvas');
    return context;
}

// Does something when what was drawn is on the screen.
/** @type {(action: () => void) => void} */
export function afterPaint(action) {
    requestAnimationFrame(() => setTimeout(action, 0));
}
