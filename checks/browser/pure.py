"""Tests of the page's pure functions: its modules are loaded in the browser, one by one, and compared with plain definitions in pure/*.js
on random small inputs. Each of these tests is tried with a fault put into what it tests, and has to fail.
"""
import http.server
import pathlib
import shutil
import subprocess
import threading

from looking import contains, same

TOP = pathlib.Path(__file__).resolve().parents[2]
PURE = pathlib.Path(__file__).resolve().parent / 'pure'
START = b'''<!doctype html><script type="module">
import { TESTS as arranged } from './arranged.js';
import { TESTS as boxes } from './boxes.js';
import { TESTS as compared } from './compared.js';
import { TESTS as short } from './short.js';
import { TESTS as texts } from './texts.js';
window.tests = { ...arranged, ...boxes, ...compared, ...short, ...texts };
</script>'''
FAULT_OF = '''(() => { try { tests[%r](); return ''; } catch (fault) { return fault.message; } })()'''
# For each test some faults: a module, what stands in it, and what is put in its place.
FAULTS = {
    'bisect': [
        ('bisect.js', 'else low = middle + 1;', 'else low = middle + 2;'),
        ('bisect.js', 'Math.min(low + step, high)', 'Math.min(low + step - 1, high)'),
    ],
    'columns': [
        ('columns.js', 'depthBefore + 1', 'depthBefore'),
        ('columns.js', 'isOn ? 0 : weightBefore', 'weightBefore'),
        ('columns.js', 'gap[box] + tail[box]', 'tail[box]'),
        ('columns.js', 'up[box + 1]', 'up[box]'),
        ('columns.js', 'without(weight[box], rest[box])', 'weight[box]'),
    ],
    'rows': [
        ('rows.js', 'row < rowCount; row++) first', 'row < rowCount - 1; row++) first'),
        ('rows.js', 'rowCount - 1 - place', 'rowCount - place'),
    ],
    'nesting': [
        ('drawing.js', 'while (opened > depth)', 'while (opened > depth + 1)'),
        ('drawing.js', 'start < endOf(drawing, box)', 'start <= endOf(drawing, box)'),
        ('drawing.js', 'drawing.number === 0', 'drawing.number !== 0'),
    ],
    'shares': [
        ('drawing.js', 'weights.before * after, after: weights.after * before', 'weights.before * before, after: weights.after * after'),
        ('drawing.js', 'before === 0 || after === 0', 'before === 0 && after === 0'),
    ],
    'spans': [
        ('spans.js', 'Math.max(drawing.start[box], from)', 'drawing.start[box]'),
        ('spans.js', 'order[at]) > seen.from', 'order[at]) >= seen.from'),
        ('spans.js', 'isEmpty(end - 1)', 'isEmpty(end)'),
        ('spans.js', 'right > left', 'right >= left'),
    ],
    'parts': [
        ('spans.js', 'place * (to - from - width)', 'place * (to - from)'),
        ('spans.js', 'Math.min(total - wide, Math.max(0, from))', 'Math.max(0, from)'),
        ('spans.js', 'from + widths * (to - from)', 'from + widths'),
    ],
    'places': [
        ('places.js', 'if (!isNarrow(next - 1)) next--;', ''),
        ('places.js', 'Math.floor(left) + 1)', 'left + 1)'),
        ('places.js', 'leftOf(at) < 1', 'leftOf(at) < 2'),
        ('places.js', 'at < place.at + place.count', 'at <= place.at + place.count'),
    ],
    'painting': [
        ('places.js', 'begin < before ? pixelEnd : begin', 'begin'),
        ('places.js', 'Math.max(before, Math.min', 'Math.max(0, Math.min'),
        ('places.js', 'Math.min(begin + NARROWEST, pixelEnd)', 'begin + NARROWEST'),
        ('places.js', 'Math.round(right) - 1', 'Math.round(right)'),
    ],
    'pointer': [
        ('places.js', 'end > across', 'begin > across'),
        ('places.js', 'begin < pixel + 1', 'begin <= pixel + 1'),
        ('places.js', 'Math.round(before.right)', '0'),
    ],
    'search': [
        ('search.js', 'if (box < covered) continue;', ''),
        ('search.js', 'order[place.at + place.count - 1] + 1', 'order[place.at + place.count - 1]'),
        ('search.js', "by === 'text' && find === find.toLowerCase()", "by === 'text'"),
        ('search.js', 'boxes[each] >= box', 'boxes[each] > box'),
        ('search.js', 'drawing.weight[other] - drawing.weight[one]', 'drawing.weight[one] - drawing.weight[other]'),
        ('search.js', 'isForward ? -1 : 0', '0'),
    ],
    'functions': [
        ('sums.js', 'if (box < covered[name]) continue;', ''),
        ('sums.js', 'Math.max(1, span.depth)', '1'),
        ('sums.js', 'rest -= weightInSpan', 'rest += weightInSpan'),
        ('sums.js', 'total[name] += weightInSpan(drawing, box, span)', 'total[name] += drawing.weight[box]'),
    ],
    'compared': [
        ('compared.js', 'const [before, after] = parts.map(', 'const [after, before] = parts.map('),
        ('compared.js', 'part[kind][name]', 'part.own[name]'),
        ('compared.js', "kind === 'own' ? 'own' : 'total'", "'own'"),
        ('compared.js', 'isShare ? page.drawing(number).total : part.whole', 'part.whole'),
        ('compared.js', 'isShare ? page.drawing(number).total : part.whole', 'page.drawing(number).total'),
        ('compared.js', 'percentText(after, wholeAfter)', 'percentText(after, whole)'),
        ('compared.js', '? after - before : (after - before) / before', '? after - before : (after - before) / after'),
        ('compared.js', "if (column === 'after') return after;", ''),
        ('compared.js', 'const isThere = profile.count > 0 && profile.depth[box] === path.length;', 'const isThere = true;'),
        ('compared.js', 'const path = pathOf(page, drawing, state.box);',
         'const path = pathOf(page, page.drawing(state.drawing), state.box);'),
        ('compared.js', 'spanOf(page, profile, there)', 'view.span'),
        ('compared.js', 'drawing: number, box }', 'drawing: number }'),
        ('compared.js', 'changeText(compared.before, compared.after)', 'changeText(before, after)'),
        ('compared.js', 'pointsText(before / (whole || 1), after / (wholeAfter || 1))', 'pointsText(before, after)'),
        ('compared.js', 'percentText(Math.abs(after - before), 1)', 'percentText(after - before, 1)'),
    ],
    'zoomed': [
        ('sums.js', 'isZoomed(view) ? zoomedWeight(drawing, span.row, span) : drawing.total', 'drawing.total'),
        ('sums.js', 'sumsOf(drawing, page.names.length, span), whole }',
         'sumsOf(drawing, page.names.length, { from: 0, to: drawing.total, depth: 0, row: 0 }), whole }'),
        ('view.js', 'state.source >= 0 || state.from >= 0', 'state.source >= 0'),
    ],
    'callers': [
        ('callers.js', 'box = drawing.end[box];', 'box++;'),
        ('callers.js', 'drawing.depth[each] > 0', 'drawing.depth[each] >= 0'),
        ('callers.js', 'drawing.depth[box] === 0 || ', ''),
        ('callers.js', 'drawing.weight[box], 0)', 'drawing.own[box], 0)'),
        ('callers.js', 'others.weight[found[path]]', 'others.own[found[path]]'),
        ('callers.js', 'centreRow - depth', 'centreRow + depth'),
        ('heaviest.js', 'weight[other] - weight[one]', 'weight[one] - weight[other]'),
    ],
    'sides': [
        ('spans.js', '* (span.row - centre) > 0', '* (span.row - centre) < 0'),
        ('spans.js', 'isEmpty(first)', 'isEmpty(first + 1)'),
        ('drawing.js', 'isUp ? { first: 1, end: drawing.callees, zero: 0 } : ', ''),
        ('focus.js', 'drawing.row[on] === row', 'true'),
        ('focus.js', 'drawing.row[each] !== row || ', ''),
    ],
    'heavy': [
        ('heaviest.js', 'at += weight[each];', 'at += weight[each] + 1;'),
        ('heaviest.js', 'box < 0 ? 0 : start[box]', '0'),
        ('heaviest.js', 'own: weights(drawing.own)', 'own: weights(drawing.weight)'),
    ],
    'beside': [
        ('beside.js', 'chart.start[box] < to', 'chart.start[box] <= to'),
        ('beside.js', 'endOf(chart, box) > from', 'endOf(chart, box) >= from'),
        ('beside.js', 'chart.start[box] - span.from)', 'chart.start[box])'),
        ('beside.js', 'weightInSpan(chart, box, span)', 'chart.weight[box]'),
        ('beside.js', 'row += rowCount;', 'row += rowCount - 1;'),
        ('drawing.js', 'source < 0 ? page.names', 'true ? page.names'),
        ('drawing.js', '(band ? band.start : 0)', '0'),
        ('spans.js', '|| isBeside(drawing)) return [];', ') return [];'),
    ],
    'bands': [
        ('spans.js', '{ ...span, depth: 0 };\n    if', 'span;\n    if'),
        ('spans.js', 'if (band && band !== bandOf(drawing, row)) return 0;', ''),
        ('spans.js', 'if (band || !isBeside(drawing)) return', 'return'),
        ('spans.js', 'zoomedBand(drawing, span) || { row: 0', 'undefined || { row: 0'),
        ('spans.js', 'zoomedBand(drawing, span) || { first: 0', 'undefined || { first: 0'),
        ('spans.js', 'from, to, depth: 0, row: isAside ? -1 : 0', 'from, to, depth: 0, row: 0'),
        ('drawing.js', 'first: band.first + 1', 'first: band.first'),
        ('drawing.js', 'bands[each].row > row', 'bands[each].row >= row'),
        ('focus.js', '.filter((each) => isInSpan(drawing, each, span))', ''),
    ],
    'gone': [
        ('gone.js', 'box = drawing.end[box];', 'box++;'),
        ('gone.js', 'drawing.end[box] - box - 1', 'drawing.end[box] - box'),
        ('gone.js', 'drawing.weight[other] - drawing.weight[one]', 'drawing.weight[one] - drawing.weight[other]'),
    ],
    'names': [
        ('names.js', 'last < 0xdc00 ? most - 1', 'last < 0xdc00 ? most'),
        ('names.js', '\\u2028-\\u202e', '\\u2028-\\u202d'),
    ],
    'units': [
        ('units.js', 'value >= step * 0.9995', 'value > step'),
        ('units.js', 'size >= unit ? weight / Math.round(size / unit)', 'size >= unit ? (weight * unit) / size'),
        ('units.js', 'percent < 1 ?', 'percent < 10 ?'),
        ('units.js', '(after - before)) / before', '(after - before)) / after'),
        ('units.js', 'Math.abs(after - before)', 'after - before'),
        ('units.js', 'microseconds: 1e-6, milliseconds: 1e-3', 'microseconds: 1e-6, milliseconds: 1e-4'),
    ],
    'axis': [
        ('axis.js', '[1, 2, 5]', '[1, 2, 4]'),
        ('axis.js', 'Math.ceil(span.from', 'Math.floor(span.from'),
        ('axis.js', 'longest(digits) <= width', 'longest(digits) <= width + ROOM'),
        ('axis.js', '.step * size < 1', '.step * size < 0'),
        ('units.js', 'Math.round(size / sizes[unit])', 'Math.round(sizes[unit] / size)'),
    ],
    'colours': [
        ('colours.js', 'Math.imul(hash, 31) + byte', 'Math.imul(hash, 33) + byte'),
        ('colours.js', 'Math.ceil(Math.abs', 'Math.round(Math.abs'),
        ('colours.js', 'nameShade(packageOf(name) || name) % HUES', 'nameShade(name) % HUES'),
        ('colours.js', 'Math.floor(nameShade(name) / HUES) * HUES', 'Math.floor(nameShade(packageOf(name)) / HUES) * HUES'),
    ],
    'address': [
        ('address.js', "path.map(encoded).join('/')", "path.join('/')"),
        ('address.js', 'isCaller(drawing, state.box)', 'false'),
        ('address.js', "const [from, to] = ['from', 'to']", "const [from, to] = ['to', 'from']"),
        ('address.js', 'isLost ? choice', 'isLost ? { ...choice, callers }'),
        ('address.js', 'drawing.depth[box] === path.length', 'drawing.depth[box] <= path.length'),
        ('address.js', "if (key === 'beside') words.delete('from');", ''),
        ('data.js', "page.view === 'chart' && ", ''),
        ('address.js', 'timeOf(drawing, state.box)', 'drawing.start[state.box]'),
        ('address.js', 'words.delete(key)', 'words.set(key, kept)'),
        ('address.js', 'state.below !== page.isBelow', 'state.below'),
        ('address.js', 'state.lists >= 0', 'state.lists > 0'),
        ('address.js', "share: page.view === 'compare' && (", 'share: ('),
        ('address.js', 'state.share !== page.isShare', 'state.share'),
        ('address.js', "words.get('share') !== '0'", "words.get('share') === '1'"),
        ('address.js', "page.view !== 'compare' && words.get('colours')", "words.get('colours')"),
        ('address.js', "words.get('root') !== 'above'", "words.get('root') === 'below'"),
        ('drawing.js', 'const next = exact >= 0 ? exact : fallback;', 'const next = fallback;'),
    ],
    'short': [
        ('short.js', 'named.slice(1, -1)', 'named.slice(1)'),
        ('short.js', '[name, head, ', '[name, '),
        ('short.js', 'named.slice(-2)', 'named.slice(-1)'),
        ('short.js', 'number === 0 || !NUMBERED', 'true || !NUMBERED'),
        ('short.js', "name[at] === '>' && ", "name[at] === '>' && name === '' && "),
        ('short.js', 'open.pop() !== closing', 'open.pop() === undefined'),
        ('short.js', "separator === ' ' && index > last", "separator === ' '"),
        ('short.js', 'word++;', 'break;'),
        ('short.js', 'name.length > LONGEST_NAME', 'false'),
    ],
    'packages': [
        ('short.js', "!== ' ') first--", "=== ' ') first--"),
        ('short.js', 'named[named.length - 1]', 'parts[parts.length - 1]'),
        ('short.js', 'return fileOf(name) || barely', 'return barely'),
        ('short.js', "numbers !== '' || ", ''),
        ('short.js', "/[/.]/.test(inside) ? inside : ''", "true ? inside : ''"),
        ('short.js', 'bareFile || (', '('),
        ('short.js', 'parts.slice(first, last)', 'parts.slice(first)'),
    ],
    'lettering': [
        ('lettering.js', 'Math.floor(room / this.letter) - 1)', 'Math.floor(room / this.letter))'),
        ('lettering.js', 'forms[chosen - 1]', 'forms[0]'),
        ('lettering.js', 'chosen === 0 && added', 'added'),
        ('lettering.js', 'each + 1).join', 'each).join'),
        ('lettering.js', 'width - 2 * PAD', 'width - PAD'),
    ],
}


# What page/join refuses: a module, what is put behind its first import (or at its end), and what join says of it.
REFUSED = [
    ('tip.js', "import { visible as seen } from './names.js';", 'cannot be joined'),
    ('tip.js', "import * as names from './names.js';", 'cannot be joined'),
    ('tip.js', "import names from './names.js';", 'cannot be joined'),
    ('tip.js', "import { visible } from './names.js';", 'visible is imported for nothing'),
    ('tip.js', "import { hexadecimal } from './names.js';\nconst tip = hexadecimal('a');", 'names.js does not export hexadecimal'),
    ('tip.js', "import { Viewer } from './viewer.js';\nconst tip = Viewer;", 'modules import each other: viewer.js, tip.js, viewer.js'),
    ('tip.js', 'const tip = 1;\nconst { left } = tip;', 'cannot be joined: const { left } = tip;'),
    ('tip.js', 'let shown = 0;', 'cannot be joined: let shown = 0;'),
    ('tip.js', 'export default Tip;', 'cannot be joined: export default Tip;'),
    ('tip.js', 'export { Tip };', 'cannot be joined: export { Tip };'),
    ('tip.js', 'listen();', 'cannot be joined: listen();'),
    ('tip.js', 'function short(text) {\n    return text;\n}', 'short is declared in svg.js and in tip.js'),
    ('tip.js', 'const tip = 1; // a comment', 'a comment stands behind something'),
    ('tip.js', 'const tip = /** @type {any} */ (1);', 'a comment stands behind something'),
    ('tip.js', 'const tip = `\n`;', 'a text in backquotes has several lines'),
    ('other.js', 'const other = 1;', 'not joined: other.js'),
]


class Modules(http.server.BaseHTTPRequestHandler):
    """Serves the modules under a number: that of the fault that they have, of those in `faults`."""
    faults = []

    def do_GET(self):
        number, _, name = self.path[1:].partition('/')
        kind, body = 'text/javascript', None
        if name == '':
            kind, body = 'text/html', START
        elif name.startswith('page/'):
            body = edited(name.removeprefix('page/'), self.faults[int(number)])
        elif (PURE / name).is_file():
            body = (PURE / name).read_bytes()
        self.send_response(404 if body is None else 200)
        self.send_header('Content-Type', kind)
        self.end_headers()
        self.wfile.write(body or b'')

    def log_message(self, *_):
        pass


def edited(name, fault):
    """A module of the page, with a fault that is in it."""
    text = (TOP / 'page' / name).read_text(encoding='utf-8')
    if fault and fault[0] == name:
        same(text.count(fault[1]), 1, f'how often page/{name} has {fault[1]}')
        text = text.replace(fault[1], fault[2])
    return text.encode('utf-8')


def served(check, faults):
    """Opens the tests with each of the faults in turn."""
    Modules.faults = faults
    server = http.server.ThreadingHTTPServer(('127.0.0.1', 0), Modules)
    threading.Thread(target=server.serve_forever, daemon=True).start()
    try:
        for number in range(len(faults)):
            check.browser.send('Page.navigate', url=f'http://127.0.0.1:{server.server_address[1]}/{number}/')
            check.browser.wait_for('window.tests !== undefined')
            yield number
    finally:
        server.shutdown()
        server.server_close()


def pure(check):
    for _ in served(check, [None]):
        names = check.browser.value('Object.keys(tests)')
        same(sorted(names), sorted(FAULTS), 'tests, and those for which there are faults')
        for name in names:
            same(check.browser.value(FAULT_OF % name), '', name)


def pure_fails(check):
    """Each test finds each fault in what it tests."""
    faults = [(name, fault) for name, those in FAULTS.items() for fault in those]
    for number in served(check, [fault for _, fault in faults]):
        name, fault = faults[number]
        assert check.browser.value(FAULT_OF % name) != '', f'{name} passes with {fault}'


def joining(check):
    """page/join refuses what would mean something else in one scope, and takes the modules as they are."""
    for number, (name, added, wanted) in enumerate([('main.js', '', ''), *REFUSED]):
        folder = check.folder / f'joined-{number}'
        shutil.copytree(TOP / 'page', folder)
        text = (folder / name).read_text(encoding='utf-8') if (folder / name).exists() else ''
        last = text.rfind("\nimport ")
        behind = text.index('\n', last + 1) + 1 if last >= 0 else len(text)
        (folder / name).write_text(f'{text[:behind]}{added}\n{text[behind:]}', encoding='utf-8')
        answer = subprocess.run([folder / 'join', '--split'], capture_output=True, check=False)
        contains(answer.stderr.decode(), wanted, f'{name} with {added}')
        same(answer.returncode, 1 if wanted else 0, f'{name} with {added}: status')


def types(check):
    """The types that stand in comments fit, where Debian's node-typescript is installed."""
    if shutil.which('tsc') is None:
        print('types: there is no tsc (node-typescript); the types of the scripts were not looked at')
        return
    answer = subprocess.run(['tsc', '-p', TOP / 'page'], capture_output=True, text=True, check=False)
    same(answer.stdout, '', 'what tsc finds')


TESTS = [pure, pure_fails, joining, types]
