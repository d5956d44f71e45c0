"""Tests of the table of functions: that it has what painted_table.py says of the data, in windows of any width, and that this finds what
is wrong."""
import json
import random
import shutil
import subprocess
import urllib.parse

import documents
import profiles
from looking import same, table
from painted_data import Document, View
from painted_table import COLUMNS, KINDS, Table, box_of

WIDTHS = (1400, 900, 600, 390)
BEFORE = 'main;walk;walk;leaf 5\nmain;walk;other 3\nmain;leaf 2\nmain;old;leaf 4\nmain 1\n'
AFTER = 'main;walk;walk;leaf 9\nmain;walk;other 3\nmain;leaf 1\nmain;new 6\nwork;leaf 7\nmain 4\n'
# What is looked at in a comparison: the path of what is zoomed, and what else a view has.
LOOKS = [
    ([], {}), ([], {'share': True}), (['main', 'walk'], {}), (['main', 'walk'], {'share': True}), (['main', 'new'], {'heavy': True}),
    (['main', 'old'], {'drawing': 0}), (['main', 'walk', 'walk'], {'drawing': 0, 'heavy': True, 'share': True}), ([], {'find': 'l'}),
    (['main', 'walk'], {'find': 'leaf', 'by': 'name'}), ([], {'find': '^w|d$', 'by': 'regexp', 'drawing': 0}), ([], {'callers': 'leaf'}),
    (['walk'], {'callers': 'walk', 'share': True, 'find': 'e'}),
]
# Where headings and cells stand, what is seen of them, and what room they have.
SEEN = '''(() => {
    const shown = (each) => each.getClientRects().length > 0;
    const area = (each) => { const { left, right } = each.getBoundingClientRect(); return [left, right]; };
    const all = (selector) => [...document.querySelectorAll(`#functions ${selector}`)].filter(shown);
    const [row, section, lists] = [all('tbody tr')[0], document.getElementById('functions'), document.getElementById('lists')];
    return {
        groups: all('th[scope="colgroup"]').map(area),
        heads: Object.fromEntries(all('th[data-key]').map((head) => [head.dataset.key, area(head)])),
        cells: row ? [...row.cells].map((cell) => shown(cell) && [...area(cell), cell.scrollWidth - cell.clientWidth]) : [],
        room: section.clientWidth,
        over: [section.scrollWidth - section.clientWidth, lists.scrollWidth - lists.clientWidth, document.documentElement.scrollWidth - innerWidth],
        sorted: all('th[aria-sort]').map((head) => [head.dataset.key, head.getAttribute('aria-sort')]),
    };
})()'''
# Faults of the page, each put back once: a file, what stands in it, what is put in its place, a look, and the width of the window.
FAULTS = [
    ('compared.js', 'const [before, after] = parts.map(', 'const [after, before] = parts.map(', 0, 1400),
    ('functions.js', '...texts[column].map', "...texts[column === 'after' ? 'change' : column].map", 0, 600),
    ('functions.js', 'comparedTexts(comparison, name, kind)', "comparedTexts(comparison, name, 'own')", 0, 390),
    ('compared.js', 'percentText(after, wholeAfter)', 'percentText(after, whole)', 2, 900),
    ('compared.js', 'isShare ? page.drawing(number).total : part.whole', 'part.whole', 3, 900),
    ('sums.js', 'isZoomed(view) ? zoomedWeight', 'isZoomed(view) && view.isShare ? zoomedWeight', 2, 1400),
    ('compared.js', 'const isThere = profile.count > 0', 'const isThere = true || profile.count > 0', 4, 1400),
    ('compared.js', '? after - before : (after - before) / before', '? after + before : (after - before) / before', 0, 1400),
    ('functions.js', 'matching[name] === 1', 'matching[name] === 0', 7, 1400),
    ('functions.js', 'functionRows(view, isMarked ? null : matching)', 'functionRows(view, matching)', 8, 1400),
    ('functions.js', 'const view = wholeOf(seen);', 'const view = seen.state.find ? seen : wholeOf(seen);', 11, 1400),
    ('functions.js', 'table.offsetWidth <= section.clientWidth', 'section.clientWidth > 0', 0, 390),
    ('functions.js', 'head.colSpan = shown.length', 'head.colSpan = 3', 0, 390),
    ('style.css', '.compared table:not([data-shown~="before"]) .before', '.compared table:not([data-shown~="before"]) td.before', 0, 600),
    ('style.css', 'min-width: 50cqi;', 'min-width: 20cqi;', 0, 390),
    ('page.html', 'class="after" rowspan="2" data-key="own-after"', 'class="after" rowspan="2" data-key="own-before"', 0, 1400),
]


def view_of(document, path, more):
    """What a look shows of a page."""
    view = View(more.get('drawing', len(document.drawings) - 1)).at(**more)
    drawing = document.drawing(view)
    return view.at(box=box_of(document, drawing, path) if path else 0)


def words_of(document, path, more):
    """The address of a look."""
    said = {'zoom': '/'.join(path), 'callers': more.get('callers', ''), 'find': more.get('find', ''), 'by': more.get('by', '')}
    switches = [f'{name}=1' for name in ('heavy', 'share') if more.get(name)]
    number = [f'drawing={more["drawing"]}'] if 'drawing' in more else []
    return '#' + '&'.join([f'{key}={urllib.parse.quote(text)}' for key, text in said.items() if text] + number + switches)


def go(browser, words):
    """Looks at an address, and waits for the table, which comes behind the picture."""
    browser.value(f'location.hash = {json.dumps(words)}')
    for _ in range(2):
        browser.settle()


def sort_by(browser, key):
    """Sorts by a column, also where that is out of sight."""
    browser.value(f"""document.querySelector('#functions th[data-key="{key}"] button').click()""")
    browser.settle()


def faults_of(browser, wanted, key, is_rising=False):
    """What the table has wrong, with what is sorted by."""
    rows, seen = table(browser), browser.value(SEEN)
    found = []
    if {row[0]: row[1:] for row in rows} != wanted.rows():
        found.append(f'it has {rows}, and not {wanted.rows()}')
    if [row[0] for row in rows] != wanted.order(key, is_rising):
        found.append(f'by {key} it has {[row[0] for row in rows]}, and not {wanted.order(key, is_rising)}')
    keys = [f'{kind}-{column}' for kind in KINDS for column in COLUMNS] if wanted.is_comparison else ['own', 'own', 'total', 'total']
    cells = seen['cells'][1:]
    shown = {each for each, cell in zip(keys, cells) if cell}
    if wanted.is_comparison:
        shown |= {f'{kind}-percent' for kind in KINDS}
    if rows and shown | {'name'} != set(seen['heads']):
        found.append(f'there are columns {shown}, and headings {seen["heads"]}')
    # Whatever has room for something has room for the changes; both kinds have the same columns.
    if (rows and wanted.is_comparison
            and [bool(cell) for cell in cells] not in ([True] * 6, [False, True, True] * 2, [False, False, True] * 2)):
        found.append(f'it shows {shown}')
    found += [f'the heading of {each} ends at {seen["heads"][each]}, and its cells at {cell}' for each, cell in zip(keys, cells)
              if cell and each in seen['heads'] and (each, cell[1]) != (each, seen['heads'][each][1]) and wanted.is_comparison]
    for group, both in zip(seen['groups'], (cells[:3], cells[3:])):
        edges = [edge for cell in both if cell for edge in cell[:2]]
        if edges and group != [edges[0], edges[-1]]:
            found.append(f'a heading stands from {group[0]} to {group[1]}, over cells from {edges[0]} to {edges[-1]}')
    found += [f'{cell[2]} pixels of {each} are cut' for each, cell in zip(keys, cells) if cell and cell[2] > 0]
    if rows and seen['cells'][0][1] - seen['cells'][0][0] < seen['room'] / 2 - 1:
        found.append(f'names have {seen["cells"][0]} of {seen["room"]}')
    if max(seen['over']) > 0:
        found.append(f'{seen["over"]} pixels are out of sight')
    if seen['sorted'] not in ([], [[key, 'ascending' if is_rising else 'descending']]):
        found.append(f'it says that it is sorted by {seen["sorted"]}')
    return found


def is_right(browser, document, view, what, key=None, is_rising=False):
    key = key or ('own-change' if document.kind == 'compare' else 'own')
    same(faults_of(browser, Table(document, view), key, is_rising), [], what)


def compared(check):
    """The document and the page of a comparison of which all looks can be made."""
    data = documents.data_of(check.program, ['compare', check.write('before.folded', BEFORE), check.write('after.folded', AFTER)])
    return Document(data), data


def tables_of_comparisons(check):
    """At whatever is looked, a comparison has own and total weights before and after, their percents, and the changes."""
    browser = check.browser
    document, data = compared(check)
    path = check.place(documents.joined(data))
    for width in WIDTHS:
        browser.resize(width, 900)
        browser.open(path)
        for look in LOOKS:
            words = words_of(document, *look)
            go(browser, words)
            is_right(browser, document, view_of(document, *look), f'the table at {words} in {width}')
    browser.resize(*browser.size)


def sorted_tables(check):
    """A table is sorted by each of its columns, both ways, also where shares are compared."""
    browser = check.browser
    document, data = compared(check)
    browser.resize(1400, 900)
    for opened, view in (('', View(1)), ('#share=1', View(1, share=True))):
        browser.open(check.place(documents.joined(data)), opened)
        is_right(browser, document, view, 'at first')
        for key in ('name', *(f'{kind}-{column}' for kind in KINDS for column in (*COLUMNS, 'percent'))):
            for is_rising in (key == 'name', key != 'name'):
                sort_by(browser, key)
                is_right(browser, document, view, f'by {key}', key, is_rising)
    browser.resize(*browser.size)


def changed(drawn, text):
    """The stacks of a text with other weights, some of them gone, and some new."""
    lines = [line.rpartition(' ') for line in text.splitlines()]
    kept = [f'{stack} {max(1, int(int(weight) * drawn.choice((0.4, 0.9, 1, 1.2, 3))))}'
            for stack, _, weight in lines if drawn.random() < 0.9]
    return '\n'.join([*kept, 'net/http.(*conn).serve;shop/cache.(*LRU[go.shape.string,go.shape.*uint8]).Get 120', ''])


def tables_of_profiles(check):
    """Of a profile, its units and its long names: columns that leave names half of the width, and in a wide window all."""
    browser = check.browser
    shop = (documents.TOP / 'examples' / 'shop.folded').read_text(encoding='utf-8')
    paths = []
    for name, text in (('before', shop), ('after', changed(random.Random(3), shop))):
        stacks = [line.rpartition(' ') for line in text.splitlines()]
        samples = [(stack.split(';'), [int(weight) * 1_234_567]) for stack, _, weight in stacks]
        paths.append(check.write(f'{name}.pb', profiles.profile([('cpu', 'nanoseconds')], samples)))
    for words in (['graph', paths[0]], ['chart', *paths], ['compare', *paths]):
        data = documents.data_of(check.program, words)
        document = Document(data)
        path = check.place(documents.joined(data))
        columns = []
        for width in (*WIDTHS, 1900):
            browser.resize(width, 900)
            browser.open(path)
            is_right(browser, document, View(len(document.drawings) - 1), f'the table of {words[0]} in {width}')
            columns.append(sum(bool(cell) for cell in browser.value(SEEN)['cells']) - 1)
            check.screenshot(f'table-{words[0]}-{width}')
        if words[0] == 'compare':
            same([columns[1], columns[-2]], [6, 2], f'how many columns {words[0]} has in 900 and in 390')
            # A reader who makes the lists wider sees all.
            browser.resize(1400, 900)
            browser.open(path, '#lists=900')
            is_right(browser, document, View(1), 'the table in wider lists')
            same(sum(bool(cell) for cell in browser.value(SEEN)['cells']) - 1, 6, 'how many columns it has there')
        else:
            same(columns, [4] * len(columns), f'how many columns {words[0]} has')
    browser.resize(*browser.size)


def tables_of_others(check):
    """Graphs, snapshots and charts have own and total weights with percents, of what is zoomed."""
    browser = check.browser
    shown = check.write('nested.folded', BEFORE), check.write('second.folded', AFTER)
    of_all = [([], {}), ([], {'find': 'l'}), ([], {'callers': 'leaf'})]
    for words, looks in ((['graph', shown[0]], [*of_all, (['main', 'walk'], {}), (['main'], {'heavy': True})]),
                         (['graph', '--every', '2', shown[0]],
                          [*of_all, ([], {'drawing': 0}), (['main', 'walk'], {'drawing': 1, 'find': 'l'})]),
                         (['chart', *shown], of_all)):
        data = documents.data_of(check.program, words)
        document = Document(data)
        path = check.place(documents.joined(data))
        for width in WIDTHS:
            browser.resize(width, 900)
            browser.open(path)
            for look in looks:
                go(browser, words_of(document, *look))
                is_right(browser, document, view_of(document, *look), f'the table of {words} at {look} in {width}')
            if words[0] != 'chart':
                continue
            total = document.drawings[0].total
            for fragment, view in (('#source=1', View(0, source=1)), (f'#from=3&to={total - 5}', View(0, part=(3, total - 5)))):
                go(browser, fragment)
                browser.value('new Promise((done) => setTimeout(done, 400))')
                is_right(browser, document, view, f'the table of {words} at {fragment} in {width}')
    browser.resize(*browser.size)


def tables_fail(check):
    """Each fault of the page is found."""
    browser = check.browser
    document, data = compared(check)
    for number, (name, right, wrong, look, width) in enumerate(FAULTS):
        folder = check.folder / f'faulty-{number}'
        shutil.copytree(documents.TOP / 'page', folder)
        text = (folder / name).read_text(encoding='utf-8')
        same(text.count(right), 1, f'how often page/{name} has {right}')
        (folder / name).write_text(text.replace(right, wrong), encoding='utf-8')
        head, tail = subprocess.run([folder / 'join', '--split'], capture_output=True, check=True).stdout.split(b'\0')
        browser.resize(width, 900)
        browser.open(check.place(head + documents.text_of(data) + tail))
        go(browser, words_of(document, *LOOKS[look]))
        found = faults_of(browser, Table(document, view_of(document, *LOOKS[look])), 'own-change')
        assert found, f'nothing is found where page/{name} has {wrong!r} for {right!r}'
    browser.resize(*browser.size)


TESTS = [tables_of_comparisons, sorted_tables, tables_of_profiles, tables_of_others, tables_fail]
