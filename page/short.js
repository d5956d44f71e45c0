// Shorter forms of a name and its package, by its characters alone. First goes where it stands in a file, then its package path, part by part, then
// what stands in brackets, then what it is a part of. What is left is cut at its end, by whoever has too little room for that.

/**
 * A part of a name. `after` is where the part before it ends.
 * @typedef {{ after: number, begin: number, end: number }} Part
 */

const OPENING = '([{<';
const CLOSING = ')]}>';
// A longer name has no shorter forms: to look for them would take long.
const LONGEST_NAME = 5000;

// ` (app.py:3)`, ` [clone .cold]`, ` /app.js:3:7`: where something stands, or which copy of it.
const PLACE = / (?:\([^()]*\)|\[[^[\]]*\]|[^ ]+:[0-9]+)$/;
// ` (app.py:3)`, ` (libc.so.6)`, ` /app.js:3:7`: a file, with numbers or without.
const FILE = / (?:\(([^()]*?)((?::[0-9]+)*)\)|([^ ]+?)(?::[0-9]+)+)$/;
// What no function is called by: numbers, closures, copies that compilers made, hashes. It stays with the part before.
const NUMBERED = /^(?:[0-9]*|(?:func|gowrap|deferwrap)[0-9]+|cold|part|isra|constprop|llvm|\{.*|h[0-9a-f]{16})$/s;

// The name with a bracket in the place of each character of what stands in brackets, and of these; or null where brackets do not match.
/** @type {(name: string) => string | null} */
function masked(name) {
    const open = [];
    const mask = [];
    for (let at = 0; at < name.length; at++) {
        const isArrow = name[at] === '>' && /[-=]/.test(name[at - 1]);
        const closing = isArrow ? -1 : CLOSING.indexOf(name[at]);
        const opening = OPENING.indexOf(name[at]);
        if (opening >= 0) open.push(opening);
        mask.push(open.length > 0 ? OPENING[0] : name[at]);
        if (closing >= 0 && open.pop() !== closing) return null;
    }
    return open.length > 0 ? null : mask.join('');
}

// The parts of a name: between them stands `/`, `.`, `::`, or a space before other parts or brackets.
/** @type {(mask: string) => Part[]} */
function partsOf(mask) {
    const last = Math.max(...[OPENING[0], '/', '.', '::'].map((mark) => mask.lastIndexOf(mark)));
    const parts = [];
    let [after, begin] = [0, 0];
    for (const { 0: separator, index = 0 } of mask.matchAll(/::|[/. ]/g)) {
        if (separator === ' ' && index > last) break;
        parts.push({ after, begin, end: index });
        [after, begin] = [index, index + separator.length];
    }
    return [...parts, { after, begin, end: mask.length }];
}

// A part without brackets and what follows them, but for those that it begins with.
/** @type {(name: string, mask: string, part: Part) => string} */
function bare(name, mask, { begin, end }) {
    let word = begin;
    while (word < end && mask[word] === OPENING[0]) word++;
    const bracket = mask.slice(0, end).indexOf(OPENING[0], word);
    return name.slice(begin, bracket < 0 ? end : bracket).trimEnd();
}

// A name without where it stands, its parts, and those of them that functions are called by; or null where it has none.
/** @type {(name: string) => { head: string, mask: string, parts: Part[], named: Part[] } | null} */
function dissected(name) {
    if (name.length > LONGEST_NAME) return null;
    const head = name.replace(PLACE, '') || name;
    const mask = masked(head);
    if (mask === null) return null;
    const parts = partsOf(mask);
    return { head, mask, parts, named: parts.filter(({ begin, end }, number) => number === 0 || !NUMBERED.test(head.slice(begin, end))) };
}

// Some parts without brackets, with what stands between them.
/** @type {(head: string, mask: string, parts: Part[]) => string} */
function barely(head, mask, parts) {
    return parts.map((part, number) => (number === 0 ? '' : head.slice(part.after, part.begin)) + bare(head, mask, part)).join('');
}

// The name, and its shorter forms, from the longest to the shortest.
/** @type {(name: string) => string[]} */
export function formsOf(name) {
    const found = dissected(name);
    if (!found) return [name];
    const { head, mask, parts, named } = found;
    /** @type {(first: Part) => string} */
    const bareFrom = (first) => barely(head, mask, parts.slice(parts.indexOf(first)));
    const forms = [name, head, ...named.slice(1, -1).map(({ begin }) => head.slice(begin)), ...named.slice(-2).map(bareFrom)];
    return forms.filter((form, number) => number === 0 || (form !== '' && form !== forms[number - 1]));
}

// The file where a function stands, empty where its name has none.
/** @type {(name: string) => string} */
function fileOf(name) {
    const [, inside = '', numbers = '', bareFile = ''] = FILE.exec(name) || [];
    return bareFile || (numbers !== '' || /[/.]/.test(inside) ? inside : '');
}

// The package of a name: the file where it stands, else the parts before that by which the function is called, from behind a space on. Empty where
// there is none.
/** @type {(name: string) => string} */
export function packageOf(name) {
    const found = dissected(name);
    if (!found) return '';
    const { head, mask, parts, named } = found;
    const last = parts.indexOf(named[named.length - 1]);
    let first = last;
    while (first > 0 && head[parts[first].after] !== ' ') first--;
    return fileOf(name) || barely(head, mask, parts.slice(first, last));
}
