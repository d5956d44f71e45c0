// What is shown of a name. A name never becomes markup: it is only ever the text of an element, of a canvas, or of an escaped SVG.

// Characters that are not seen, or that turn the text around them, but for the joiners inside emoji and scripts.
const UNSEEN = /[\u0000-\u001f\u007f-\u009f\u00ad\u061c\u180e\u200b\u200e\u200f\u2028-\u202e\u2060-\u206f\ufeff\ufff9-\ufffb\ufffe\uffff]/g;

/** @type {(character: string) => string} */
function hexadecimal(character) {
    return `[U+${character.charCodeAt(0).toString(16).toUpperCase().padStart(4, '0')}]`;
}

// The text with its number in the place of each character that is not seen.
/** @type {(text: string) => string} */
export function visible(text) {
    return text.replace(UNSEEN, hexadecimal);
}

// The first characters of the text, at most so many, and no half of a surrogate pair.
/** @type {(text: string, most: number) => string} */
export function beginning(text, most) {
    if (text.length <= most) return text;
    const last = text.charCodeAt(most - 1);
    return text.slice(0, last >= 0xd800 && last < 0xdc00 ? most - 1 : most);
}

// What is shown of a name where there is room for so many characters.
/** @type {(text: string, most: number) => string} */
export function shortened(text, most) {
    const first = beginning(text, most);
    return visible(first) + (first.length < text.length ? '…' : '');
}

// What is shown of a name where there is room for lines of it.
/** @type {(text: string) => string} */
export function described(text) {
    const most = 1500;
    if (text === '') return '(empty name)';
    if (text.length <= most) return visible(text);
    return `${shortened(text, most)} (${text.length.toLocaleString('en')} characters)`;
}

// What is shown of a name in a list.
/** @type {(text: string) => string} */
export function nameText(text) {
    return shortened(text, 200) || '(empty name)';
}
