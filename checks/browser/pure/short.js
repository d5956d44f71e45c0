// Tests of the shorter forms of names and of their packages: of some languages by hand, and of any characters against a plain definition.

import { formsOf, packageOf } from './page/short.js';
import { holds, randomOf, same } from './random.js';

// Names as profilers write them, each with its shorter forms.
const KNOWN = [
    // Go
    ['go/types.(*Checker).Files', 'types.(*Checker).Files', '(*Checker).Files', 'Files'],
    ['net/http.HandlerFunc.ServeHTTP', 'http.HandlerFunc.ServeHTTP', 'HandlerFunc.ServeHTTP', 'ServeHTTP'],
    ['shop/search.(*Index).rank.func2.1', 'search.(*Index).rank.func2.1', '(*Index).rank.func2.1', 'rank.func2.1'],
    ['encoding/json.appendString[...]', 'json.appendString[...]', 'json.appendString', 'appendString'],
    ['runtime.mallocgc', 'mallocgc'],
    // C++
    ['std::vector<int, std::allocator<int> >::push_back(int const&)', 'vector<int, std::allocator<int> >::push_back(int const&)',
     'vector::push_back', 'push_back'],
    ['void std::sort<int*>(int*, int*)', 'std::sort<int*>(int*, int*)', 'std::sort', 'sort'],
    ['(anonymous namespace)::Parser::next() const', 'Parser::next() const', 'Parser::next', 'next'],
    ['main(int, char**)', 'main'],
    ['copy(char*) [clone .isra.0]', 'copy(char*)', 'copy'],
    ['std::ostream& operator<< <char>(std::ostream&)'],
    // Rust
    ['<alloc::vec::Vec<T> as core::iter::Extend<T>>::extend', 'extend'],
    ['core::ptr::drop_in_place<alloc::string::String>', 'ptr::drop_in_place<alloc::string::String>', 'ptr::drop_in_place', 'drop_in_place'],
    ['<F as core::ops::FnOnce() -> T>::call_once', 'call_once'],
    ['tokio::task::raw::poll::h0123456789abcdef', 'task::raw::poll::h0123456789abcdef', 'raw::poll::h0123456789abcdef', 'poll::h0123456789abcdef'],
    ['std::thread::spawn::{{closure}}', 'thread::spawn::{{closure}}', 'spawn::{{closure}}'],
    // Java
    ['java.util.concurrent.ThreadPoolExecutor$Worker.run', 'util.concurrent.ThreadPoolExecutor$Worker.run',
     'concurrent.ThreadPoolExecutor$Worker.run', 'ThreadPoolExecutor$Worker.run', 'run'],
    ['java/util/HashMap.getNode', 'util/HashMap.getNode', 'HashMap.getNode', 'getNode'],
    ['org.shop.Cart.<init>', 'shop.Cart.<init>', 'Cart.<init>', '<init>'],
    // Python
    ['parse (app/views.py:12)', 'parse'],
    ['<module> (site.py:3)', '<module>'],
    ['json.decoder.JSONDecoder.decode', 'decoder.JSONDecoder.decode', 'JSONDecoder.decode', 'decode'],
    // Node
    ['Module._compile (node:internal/modules/cjs/loader:1105:14)', 'Module._compile', '_compile'],
    ['LazyCompile:*parse /app/lib/parse.js:10:23', 'LazyCompile:*parse'],
    ['(garbage collector)'],
    // Of any
    ['[unknown]'], ['all'], [''], ['a.b', 'b'], ['__libc_start_main@@GLIBC_2.34'],
];

// Names as profilers write them, each with its package.
const PACKAGED = [
    // Go
    ['go/types.(*Checker).Files', 'go/types.(*Checker)'], ['net/http.HandlerFunc.ServeHTTP', 'net/http.HandlerFunc'],
    ['net/http.HandlerFunc.ServeHTTP.func1', 'net/http.HandlerFunc'],
    ['shop/search.(*Index).rank.func2.1', 'shop/search.(*Index)'], ['encoding/json.appendString[...]', 'encoding/json'], ['runtime.mallocgc', 'runtime'],
    // C++
    ['std::vector<int, std::allocator<int> >::push_back(int const&)', 'std::vector'], ['void std::sort<int*>(int*, int*)', 'std'],
    ['(anonymous namespace)::Parser::next() const', '(anonymous namespace)::Parser'], ['main(int, char**)', ''], ['void f<int>(int)', ''],
    ['void std::vector<int>::push_back(int const&)', 'std::vector'],
    ['copy(char*) [clone .isra.0]', ''], ['std::ostream& operator<< <char>(std::ostream&)', ''], ['malloc (libc.so.6)', 'libc.so.6'],
    ['a::f(int) (inlined)', 'a'],
    // Rust
    ['<alloc::vec::Vec<T> as core::iter::Extend<T>>::extend', '<alloc::vec::Vec<T> as core::iter::Extend<T>>'],
    ['core::ptr::drop_in_place<alloc::string::String>', 'core::ptr'], ['tokio::task::raw::poll::h0123456789abcdef', 'tokio::task::raw'],
    ['std::thread::spawn::{{closure}}', 'std::thread'],
    // Java
    ['java.util.concurrent.ThreadPoolExecutor$Worker.run', 'java.util.concurrent.ThreadPoolExecutor$Worker'],
    ['java/util/HashMap.getNode', 'java/util/HashMap'], ['java.util.HashMap.getNode', 'java.util.HashMap'], ['org.shop.Cart.<init>', 'org.shop.Cart'],
    // Python
    ['parse (app/views.py:12)', 'app/views.py'], ['parse (app/views.py)', 'app/views.py'], ['parse (views:12)', 'views'],
    ['<module> (site.py:3)', 'site.py'],
    ['json.decoder.JSONDecoder.decode', 'json.decoder.JSONDecoder'],
    // Node
    ['Module._compile (node:internal/modules/cjs/loader:1105:14)', 'node:internal/modules/cjs/loader'],
    ['LazyCompile:*parse /app/lib/parse.js:10:23', '/app/lib/parse.js'], ['(garbage collector)', ''],
    // Of any
    ['[unknown]', ''], ['all', ''], ['', ''], ['a.b', 'a'], ['__libc_start_main@@GLIBC_2.34', ''],
];

const PIECES = ['go', 'Files', 'é', '/', '.', '..', '::', ' ', '<int>', '<a::b>', '<', '>', '->', '(*T)', '(a, b)', '[...]', '{{closure}}', 'func1', '2',
    'part', ' (a/b.py:3)', ' [clone .cold]', ':12', 'h0123456789abcdef', '(', ']', '\n'];

// What begins behind a bracket, up to the other that closes it; or the whole where none does.
function behindGroup(text) {
    const open = [];
    for (let at = 0; at < text.length; at++) {
        const isArrow = text[at] === '>' && '-='.includes(text[at - 1] ?? 'none');
        if ('([{<'.includes(text[at])) open.push(')]}>'['([{<'.indexOf(text[at])]);
        else if (')]}>'.includes(text[at]) && !isArrow && open.pop() !== text[at]) return null;
        if (open.length === 0) return text.slice(at + 1);
    }
    return null;
}

// A name as words, separators and groups in brackets, from left to right; or null where brackets do not match.
function piecesOf(text) {
    const pieces = [];
    while (text !== '') {
        const isArrow = text[0] === '>' && '-='.includes(pieces.at(-1)?.at(-1) ?? 'none');
        if (')]}>'.includes(text[0]) && !isArrow) return null;
        const rest = '([{<'.includes(text[0]) ? behindGroup(text) : text.slice(text.startsWith('::') ? 2 : 1);
        if (rest === null) return null;
        pieces.push(text.slice(0, text.length - rest.length));
        text = rest;
    }
    return pieces;
}

const isGroup = (piece) => '([{<'.includes(piece[0]);
const isSeparator = (piece) => ['/', '.', '::'].includes(piece);
const isNumber = (text) => /^([0-9]*|(func|gowrap|deferwrap)[0-9]+|cold|part|isra|constprop|llvm|\{[^]*|h[0-9a-f]{16})$/.test(text);

// The parts of a name without where it stands: of each its pieces, and what stands before it; or null where brackets do not match.
function plainParts(head) {
    const pieces = piecesOf(head);
    if (!pieces) return null;
    const parts = [{ before: '', pieces: [] }];
    pieces.forEach((piece, at) => {
        const isCut = isSeparator(piece) || (piece === ' ' && pieces.slice(at).some((each) => isSeparator(each) || isGroup(each)));
        if (isCut) parts.push({ before: piece, pieces: [] });
        else parts.at(-1).pieces.push(piece);
    });
    return parts;
}

// A part without what follows its first group, but for groups that it begins with.
function bareOf(those) {
    const word = those.findIndex((piece) => !isGroup(piece));
    const group = those.findIndex((piece, at) => word >= 0 && at > word && isGroup(piece));
    return (group < 0 ? those : those.slice(0, group)).join('').trimEnd();
}

const headOf = (name) => name.replace(/ (\([^()]*\)|\[[^\][]*\]|[^ ]+:[0-9]+)$/, '') || name;

// The package of a name by its meaning: the file at its end, else what stands between the last space and the last part that is no number.
function plainPackage(name) {
    const parts = plainParts(headOf(name));
    if (!parts) return '';
    const [, place = ''] = name.match(/ (\([^()]*\)|[^ ]+:[0-9]+)$/) || [];
    const file = place.replace(/^\((.*)\)$/s, '$1').replace(/(:[0-9]+)+$/, '');
    if (place !== '' && (/[/.]/.test(file) || /:[0-9]+\)?$/.test(place)) && file !== '') return file;
    const last = parts.findLastIndex(({ pieces }, at) => at === 0 || !isNumber(pieces.join('')));
    const first = parts.findLastIndex(({ before }, at) => at <= last && (at === 0 || before === ' '));
    return parts.slice(first, last).map(({ before, pieces }, at) => (at > 0 ? before : '') + bareOf(pieces)).join('');
}

// The shorter forms of a name by their meaning: of the pieces of each part, all from it on; and without groups that no part begins with.
function plainForms(name) {
    const head = headOf(name);
    const parts = plainParts(head);
    if (!parts) return [name];
    const written = (from, textOf) => parts.slice(from).map(({ before, pieces: those }, at) => (at > 0 ? before : '') + textOf(those)).join('');
    const named = parts.flatMap(({ pieces: those }, at) => (at === 0 || !isNumber(those.join('')) ? [at] : []));
    const whole = named.slice(1, -1).map((at) => written(at, (those) => those.join('')));
    const forms = [name, head, ...whole, ...named.slice(-2).map((at) => written(at, bareOf))];
    return forms.filter((form, at) => at === 0 || (form !== '' && form !== forms[at - 1]));
}

function short() {
    for (const forms of KNOWN) same(formsOf(forms[0]), forms, `the forms of ${forms[0]}`);
    const random = randomOf(6);
    let [several, cut] = [0, 0];
    for (let round = 0; round < 5000; round++) {
        const name = Array.from({ length: random.below(9) }, () => random.choose(PIECES)).join('');
        const found = formsOf(name);
        same(found, plainForms(name), `the forms of ${name}`);
        found.slice(1).forEach((form, at) => holds(form.length < found[at].length, `${name}: ${form} is no shorter`));
        several += Number(found.length > 2);
        cut += Number(found.length === 1);
    }
    holds(several > 500 && cut > 500, `${several} have several forms, ${cut} have one`);
    const long = `${'a.'.repeat(2500)}b`;
    same(formsOf(long), [long], 'a very long name');
}

function packages() {
    for (const [name, wanted] of PACKAGED) same(packageOf(name), wanted, `the package of ${name}`);
    const random = randomOf(8);
    let some = 0;
    for (let round = 0; round < 5000; round++) {
        const name = Array.from({ length: random.below(9) }, () => random.choose(PIECES)).join('');
        const found = packageOf(name);
        same(found, plainPackage(name), `the package of ${name}`);
        some += Number(found !== '');
    }
    holds(some > 500, `${some} have a package`);
    same(packageOf(`${'a.'.repeat(2500)}b`), '', 'a very long name');
}

export const TESTS = { short, packages };
