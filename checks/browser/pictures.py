"""Tests of what is drawn: the first paint, widths, zoom, keys, snapshots, lanes and differences."""
import documents
from looking import ROW, Picture, contains, data_in, fragment, near, same, search, table

# The boxes of examples/parse.folded, by hand: depth, name, start, weight.
PARSE = [(0, 'all', 0, 57), (1, 'main', 0, 57), (2, 'layout', 0, 7), (3, 'measure', 3, 4), (2, 'parse', 7, 50), (3, 'read', 7, 19),
         (3, 'tokenize', 26, 31)]


def first_paint(check):
    check.show('graph', 'parse.folded')
    browser = check.browser
    same(browser.text('#title'), 'parse.folded', 'title')
    same(browser.value('document.title'), 'parse.folded', 'title of the window')
    same(browser.text('#summary'), 'Flame graph of 1 source: 57, 7 boxes', 'summary')
    same(browser.text('#notices'), '', 'notices')
    browser.wait_for("performance.getEntriesByName('first-contentful-paint').length > 0")
    same(browser.happened('Runtime.exceptionThrown') + browser.happened('Log.entryAdded'), [], 'faults')
    same([len(Picture(browser).runs(depth)) for depth in range(5)], [1, 1, 2, 3, 0], 'boxes in each row of pixels')
    check.screenshot('graph')


def widths(check):
    check.show('graph', 'parse.folded')
    picture = Picture(check.browser)
    for depth in range(4):
        wanted = [box for box in PARSE if box[0] == depth]
        runs = picture.runs(depth)
        same(len(runs), len(wanted), f'boxes in row {depth}')
        for (left, right, _), (_, name, start, weight) in zip(runs, wanted):
            near(left, start * picture.width / 57, f'left edge of {name}', 1.5)
            near(right, (start + weight) * picture.width / 57, f'right edge of {name}', 1.5)
    for depth, name, start, weight in PARSE:
        inside = 1 / picture.width
        same(picture.name(depth, start / 57 + inside), name, f'just inside the left edge of {name}')
        same(picture.name(depth, (start + weight) / 57 - inside), name, f'just inside the right edge of {name}')
    same(picture.name(3, 2.9 / 57), None, 'under the own weight of layout')
    same(picture.told(2, 0.5), ['parse', '50, 87.7% of the whole', 'own 0'], 'tip of parse')
    same(picture.told(2, 0.05), ['layout', '7, 12.3% of the whole', 'own 3'], 'tip of layout')
    check.browser.resize(700, 900)
    check.browser.settle()
    narrow = Picture(check.browser)
    assert narrow.width != picture.width, 'the window is narrower'
    near(narrow.runs(3)[1][1], 26 * narrow.width / 57, 'right edge of read in a narrower window', 1.5)
    check.browser.resize(*check.browser.size)


def broken(check):
    browser = check.browser
    document = check.show('graph', 'parse.folded')
    half = check.place(document[:document.index(b'"rest":[')])
    browser.go(half)
    browser.wait_for("document.readyState === 'complete'")
    contains(browser.text('#summary'), 'the document is cut off', 'half of a document')
    same(browser.value("document.querySelector('main').hidden"), True, 'the picture is hidden')
    browser.go(check.place(document.replace(b'"rest":[', b'rest:[')))
    browser.wait_for("document.readyState === 'complete'")
    contains(browser.text('#summary'), 'The data of this page cannot be read', 'data that is no JSON')


def root_below(check):
    check.show('graph', 'parse.folded')
    check.browser.click_on('#below')
    picture = Picture(check.browser)
    same([picture.name(depth, 0.9, rows=4) for depth in range(4)], ['all', 'main', 'parse', 'tokenize'], 'from the lowest row up')
    same([len(picture.runs(row)) for row in range(4)], [3, 2, 1, 1], 'boxes in each row of pixels, from the top')
    same(fragment(check.browser), '#root=below', 'fragment')
    check.browser.click_on('#below')
    same(picture.name(0, 0.9), 'all', 'the top row')


def root_below_at_first(check):
    """A page that begins with the root below says in its address where it was turned back."""
    browser = check.browser
    path = check.place(check.show('graph', '--root-below', 'parse.folded'))
    turned = []
    for opened in ('', '#root=above', '#root=below'):
        browser.open(path, opened)
        picture = Picture(browser)
        for _ in range(2):
            turned.append([fragment(browser), picture.name(0, 0.9), picture.name(3, 0.9)])
            browser.click_on('#below')
    below, above = ['', 'tokenize', 'all'], ['#root=above', 'all', 'tokenize']
    same(turned, [below, above, above, below, below, above], 'address, first and last row, as opened and as turned')


def zoom(check):
    browser = check.browser
    check.show('graph', 'parse.folded')
    picture = Picture(browser)
    picture.click(2, 0.5)
    same(fragment(browser), '#zoom=main/parse', 'fragment after a click')
    same([len(picture.runs(depth)) for depth in range(4)], [1, 1, 1, 2], 'boxes in each row while zoomed')
    near(picture.runs(3)[0][1], 19 * picture.width / 50, 'right edge of read while zoomed', 1.5)
    same(picture.told(3, 0.1)[1], '19, 33.3% of the whole, 38% of what is zoomed', 'tip of read')
    picture.click(3, 0.9)
    same(fragment(browser), '#zoom=main/parse/tokenize', 'fragment after the second click')
    browser.press('Escape')
    browser.wait_for("location.hash === '#zoom=main/parse'")
    browser.settle()
    same(len(picture.runs(3)), 2, 'boxes in the last row after Escape')
    browser.click_on('#back')
    browser.wait_for("location.hash === '#' || location.hash === ''")
    browser.settle()
    same(len(picture.runs(3)), 3, 'boxes in the last row after Back')
    same(browser.value("document.getElementById('back').disabled"), True, 'Back is off')
    browser.value('history.forward()')
    browser.wait_for("location.hash === '#zoom=main/parse'")
    browser.settle()
    same(len(picture.runs(3)), 2, 'boxes in the last row after the browser went forward')
    picture.click(0, 0.5)
    same(len(picture.runs(3)), 3, 'boxes in the last row after a click on the root')


def keys(check):
    browser = check.browser
    check.show('graph', 'parse.folded')
    for _ in range(30):
        browser.press('Tab')
        if browser.value('document.activeElement.id') == 'picture':
            break
    same(browser.value('document.activeElement.id'), 'picture', 'the picture is reached by Tab')
    picture = Picture(browser)
    edges = {name: (start, weight, depth) for depth, name, start, weight in PARSE}
    for key, wanted in [('ArrowDown', 'main'), ('ArrowDown', 'parse'), ('ArrowLeft', 'layout'), ('ArrowLeft', 'layout'),
                        ('ArrowDown', 'measure'), ('ArrowRight', 'read'), ('End', 'tokenize'), ('Home', 'measure'),
                        ('ArrowUp', 'layout'), ('ArrowRight', 'parse')]:
        browser.press(key)
        same(picture.focused(), wanted, f'focus after {key}')
        start, weight, depth = edges[wanted]
        left, width, row = picture.ring()
        near(left, start * picture.width / 57, f'left edge of the ring around {wanted}')
        near(width, weight * picture.width / 57, f'width of the ring around {wanted}')
        near(row, depth, f'row of the ring around {wanted}', 0.2)
    style = browser.value("(({ outlineStyle, outlineWidth }) => [outlineStyle, outlineWidth])"
                          "(getComputedStyle(document.querySelector('.ring:not([hidden])')))")
    same(style, ['solid', '3px'], 'the ring is seen')
    nodes = browser.send('Accessibility.getFullAXTree')['nodes']
    items = [node for node in nodes if node['role']['value'] == 'treeitem' and not node['ignored']]
    same([node['name']['value'] for node in items], ['parse · 50, 87.7% of the whole · own 0'], 'what a screen reader is told')
    roles = {'button', 'checkbox', 'combobox', 'searchbox', 'slider', 'tree', 'treeitem', 'table', 'columnheader'}
    shown = [(node['role']['value'], node.get('name', {}).get('value')) for node in nodes if not node['ignored']]
    unnamed = [role for role, name in shown if role in roles and not name]
    assert {'button', 'checkbox', 'combobox', 'searchbox', 'tree'} <= {role for role, _ in shown}, 'the tools are seen by a screen reader'
    same(unnamed, [], 'what a screen reader has no name for')
    level = [each['value']['value'] for node in items for each in node['properties'] if each['name'] == 'level']
    same(level, [3], 'level of the focused box')
    browser.press('Enter')
    same(fragment(browser), '#zoom=main/parse', 'fragment after Enter')
    browser.press('ArrowDown')
    same(picture.focused(), 'tokenize', 'focus after a step down while zoomed')
    browser.press('Escape')
    browser.wait_for("!location.hash.includes('zoom')")


def snapshots(check):
    browser = check.browser
    document = check.show('graph', '--every', '2', 'parse.folded')
    drawings = data_in(document)['drawings']
    same([each.get('at') for each in drawings], [2, 4, None], 'drawings in the data')
    picture = Picture(browser)
    same(browser.text('#drawing-name'), 'all samples', 'what is looked at first')
    picture.click(2, 0.5)
    browser.value("document.getElementById('snapshot').focus()")
    browser.press('ArrowLeft')
    same(browser.text('#drawing-name'), 'the first 4 samples', 'after a step to the left')
    contains(browser.text('#summary'), ': 53, ', 'summary')
    same(fragment(browser), '#zoom=main/parse&drawing=1', 'the zoom stays')
    near(picture.runs(3)[0][1], 19 * picture.width / 50, 'right edge of read', 1.5)
    browser.press('ArrowLeft')
    same(browser.text('#drawing-name'), 'the first 2 samples', 'after two steps')
    near(picture.runs(3)[0][1], 12 * picture.width / 43, 'right edge of read in the first two samples', 1.5)
    check.screenshot('snapshot')


def snapshots_of_sources(check):
    browser = check.browser
    # Of two sources the program may take the samples in another order in each run.
    data = documents.data_of(check.program, ['graph', '--every', '1',
                                             check.write('order.folded', 'main;load 3\nmain;work;walk 5\nmain 1\n')])
    for drawing, counts in zip(data['drawings'], [[1, 0], [1, 1], [1, 2]]):
        drawing['counts'] = counts
    data['sources'] = [data['sources'][0] | {'name': name, 'weight': weight} for name, weight in (('one.folded', 3), ('two.folded', 6))]
    browser.open(check.place(documents.joined(data)))
    picture = Picture(browser)
    same(search(browser, 'walk'), '1 matched, 55.6%', 'search in all samples')
    picture.click(3, 0.7)
    same(fragment(browser), '#zoom=main/work/walk&find=walk', 'what is zoomed at first')
    browser.value("document.getElementById('snapshot').focus()")
    told = []
    for key in ('Home', 'ArrowRight', 'End'):
        browser.press(key)
        told.append([browser.text('#drawing-name'), browser.text('#matched'), fragment(browser)])
    same(told, [['the first sample: 1 of one.folded, 0 of two.folded', '0 matched, 0%', '#zoom=main&find=walk&drawing=0'],
                ['the first 2 samples: 1 of one.folded, 1 of two.folded', '1 matched, 62.5%', '#zoom=main/work/walk&find=walk&drawing=1'],
                ['all samples', '1 matched, 55.6%', '#zoom=main/work/walk&find=walk']], 'the zoom and the search stay')
    browser.press('ArrowLeft')
    same(browser.value("document.getElementById('snapshot').getAttribute('aria-valuetext')"),
         'the first 3 samples: 1 of one.folded, 2 of two.folded', 'what a screen reader hears of the slider')


def lanes(check):
    browser = check.browser
    check.show('chart', 'parse.folded', 'faster.folded')
    picture = Picture(browser)
    strips = browser.value("[...document.querySelectorAll('#lanes button')].map((each) =>"
                           " [each.textContent, each.getBoundingClientRect().left, each.getBoundingClientRect().width])")
    same([strip[0] for strip in strips], ['parse.folded', 'faster.folded'], 'names of the lanes')
    boundary = 57 * picture.width / 95
    near(strips[0][2], boundary, 'width of the first lane')
    near(strips[1][1] - picture.left, boundary, 'left edge of the second lane')
    line = picture.pixels(6)
    dark = [place for place, colour in enumerate(line) if colour == (128, 134, 143)]
    same(dark, [round(boundary)], 'the line between the sources')
    contains(picture.told(1, 0.5)[3], 'in parse.folded, faster.folded', 'the sources of main')
    check.screenshot('chart')
    ticks = browser.value("[...document.querySelectorAll('#axis span')]"
                          '.map((each) => [each.textContent, each.getBoundingClientRect().left])')
    for text, left in ticks:
        near(left - picture.left, int(text) * picture.width / 95, f'tick {text}')
    same([text for text, _ in ticks][:3], ['0', '10', '20'], 'the axis')
    browser.click_on('#lanes button:nth-child(2)')
    same(fragment(browser), '#source=1', 'fragment')
    hidden = browser.value("[...document.querySelectorAll('#lanes button')].map((each) => each.hidden)")
    same(hidden, [True, False], 'the lanes that are not seen')
    # The second source alone: read 11, tokenize 12, layout 3, read 8, layout 4 with measure on it.
    wanted = [(0, 11), (11, 23), (26, 34), (34, 38)]
    found = [(round(left * 38 / picture.width), round(right * 38 / picture.width)) for left, right, _ in picture.runs(3)]
    same(found, wanted, 'boxes of the second source')
    same(browser.text('#functions-title'), 'Functions in faster.folded', 'what the table is of')
    contains(table(browser), ['main', '0', '0%', '38', '100%'], 'a function that goes on from the first source')
    contains(table(browser), ['read', '19', '50%', '19', '50%'], 'a function of the second source')
    browser.press('Escape')
    browser.wait_for("!location.hash.includes('source')")


def differences(check):
    browser = check.browser
    before = check.write('before.folded', 'main;same 10\nmain;less 20\nmain;more 5\nmain;old;part 6\nmain;old 2\nmain;also 1\n')
    after = check.write('after.folded', 'main;same 10\nmain;less 5\nmain;more 20\nmain;new 4\n')
    check.show('compare', before, after)
    picture = Picture(browser)
    contains(browser.text('#summary'), 'before 44, after 39, −11.4%', 'summary')
    # In the profile after: less 0 to 5, more 5 to 25, new 25 to 29, same 29 to 39.
    less, more, new, still = [picture.colour(2, weight / 39) for weight in (2.5, 15, 27, 34)]
    assert less[2] > less[0] + 15, f'less is not blue: {less}'
    assert more[0] > more[2] + 15 and new[0] > new[2] + 15, f'more is not red: {more}, {new}'
    assert max(still) - min(still) < 4, f'what is the same is not grey: {still}'
    assert new[0] - new[2] >= more[0] - more[2], 'what is new is at least as red as what is more'
    same([picture.told(2, weight / 39)[3] for weight in (2.5, 15, 27, 34)],
         ['before 20: −75%', 'before 5: +300%', 'before 0: new', 'before 10: ±0%'], 'tips')
    same(browser.text('#gone-summary'), '2 paths, together 9, 20.5% of the profile before. 1 more went with them.', 'what is gone')
    same(browser.value("[...document.querySelectorAll('#gone-list button')].map((each) => each.textContent)"),
         ['8  main › old', '1  main › also'], 'the paths that are gone, whose callers are not')
    rows = table(browser)
    contains(rows, ['more', '5 11.4%', '20 51.3%', '+15 +300%', '5 11.4%', '20 51.3%', '+15 +300%'], 'functions')
    contains(rows, ['old', '2 4.55%', '0 0%', '−2 gone', '8 18.2%', '0 0%', '−8 gone'], 'functions')
    same([row[0] for row in rows], ['more', 'new', 'main', 'same', 'also', 'old', 'part', 'less'], 'by change, the most growth first')
    check.screenshot('comparison')
    browser.click_on('th[data-key="total-change"] button')
    same([row[0] for row in table(browser)], ['more', 'new', 'same', 'also', 'main', 'part', 'old', 'less'], 'by change of totals')
    browser.click_on('#gone-list li:nth-child(1) button')
    same(browser.text('#drawing-name'), f'before: {before}', 'a path that is gone is shown in the profile before')
    same(fragment(browser), '#zoom=main/old&drawing=0', 'fragment')
    same(picture.told(3, 0.5)[3], 'after 0: gone', 'tip of what went with it')
    old, part = (['old', '2 25%', '0 0%', '−2 gone', '8 100%', '0 0%', '−8 gone'],
                 ['part', '6 75%', '0 0%', '−6 gone', '6 75%', '0 0%', '−6 gone'])
    same(sorted(table(browser)), [old, part], 'functions in what is gone')
    browser.click_on('#before')
    same(browser.text('#drawing-name'), f'after: {after}', 'back to the profile after')
    browser.value("[...document.querySelectorAll('#functions td button')].find((each) => each.textContent === 'old').click()")
    browser.settle()
    same(browser.text('#drawing-name'), f'before: {before} · callers and callees of old', 'a function that is gone')
    same(picture.told(1, 0.5)[1:], ['8, 18.2% of the whole, 100% of old', 'own 2', 'after 0: gone'], 'tip of what is gone')


def shares(check):
    """A comparison of shares: of profiles of which one is three times as long, nothing changed but what has another part of the whole."""
    browser = check.browser
    before = check.write('short.folded', 'main;same 10\nmain;less 20\nmain;more 10\n')
    after = check.write('long.folded', 'main;same 30\nmain;less 30\nmain;more 60\n')
    check.show('compare', before, after)
    picture = Picture(browser)
    browser.click_on('#share')
    same(fragment(browser), '#share=1', 'fragment')
    less, more, still = (picture.colour(2, part) for part in (0.1, 0.5, 0.9))
    assert less[2] > less[0] + 15 and more[0] > more[2] + 15, f'less is blue and more is red: {less}, {more}'
    assert max(still) - min(still) < 4, f'what has the same share is grey: {still}'
    same([picture.told(2, part)[3] for part in (0.1, 0.9)],
         ['before 20, 50% of its whole: −50% of its share', 'before 10, 25% of its whole: ±0% of its share'], 'tips')
    rows = {name: cells for name, *cells in table(browser)}
    same(rows['more'][:3], ['10 25%', '60 50%', '+25% +100%'], 'a function that has more of the whole')
    same(rows['less'][:3], ['20 50%', '30 25%', '−25% −50%'], 'a function that has less of the whole')
    same(browser.text('th[data-key="own-change"]'), 'Points', 'what the change is in')
    same(list(rows), ['more', 'main', 'same', 'less'], 'by change of shares')
    browser.click_on('#share')
    weights = {name: cells for name, *cells in table(browser)}
    same([fragment(browser), weights['less'][:3]], ['', ['20 50%', '30 25%', '+10 +50%']], 'weights again')


def shares_at_first(check):
    """A page that begins by shares says in its address where it was turned to weights."""
    browser = check.browser
    before = check.write('short.folded', 'main;same 10\nmain;less 30\n')
    after = check.write('long.folded', 'main;same 30\nmain;less 30\n')
    path = check.place(check.show('compare', '--share', before, after))
    turned = []
    for opened in ('', '#share=0', '#share=1'):
        browser.open(path, opened)
        for _ in range(2):
            turned.append([fragment(browser), {name: cells for name, *cells in table(browser)}['less'][2]])
            browser.click_on('#share')
    shares, weights = ['', '−25% −33.3%'], ['#share=0', '0 ±0%']
    same(turned, [shares, weights, weights, shares, shares, weights], 'address and a function, as opened and as turned')


def gone_from_the_depth(check):
    """Of a long path the name is read, and the callers are cut."""
    browser = check.browser
    callers = ';'.join(f'a_caller_with_a_name_{number}' for number in range(20))
    before = check.write('long-before.folded', f'{callers};vanished_function 5\n{callers};;leaf 2\nstays 1\n')
    check.show('compare', before, check.write('long-after.folded', f'{callers} 1\nstays 1\n'))
    parts = browser.value('''[...document.querySelectorAll('#gone-list button')].map((button) =>
        [...button.children].map((part) => [part.textContent, part.scrollWidth > part.clientWidth]))''')
    same([part[0] for part in parts], [['5  ', False], ['2  ', False]], 'weights')
    same([part[2] for part in parts], [['vanished_function', False], ['(empty name)', False]], 'names')
    for _, (text, is_cut), _ in parts:
        same([text.split(' › ')[0], is_cut], ['a_caller_with_a_name_0', True], 'callers')
    left, _, width, _ = browser.area('#picture')
    assert browser.area('#gone')[0] >= left + width, 'the list stands beside the picture'


def deep(check):
    browser = check.browser
    names = ';'.join(f'f{number}' for number in range(4096))
    check.show('graph', check.write('deep.folded', f'{names} 1\n'))
    picture = Picture(browser)
    same(browser.value("document.getElementById('canvas').height"), round(picture.height), 'the canvas is as high as what is seen')
    browser.value("document.getElementById('picture').focus()")
    for _ in range(60):
        browser.press('ArrowDown')
    same(picture.focused(), 'f59', 'focus after 60 steps down')
    row = picture.ring()[2]
    assert 0 <= row <= picture.height / ROW - 0.9, f'the ring is out of sight, in row {row}'
    browser.value("document.getElementById('picture').scrollTop = 1e9")
    browser.settle()
    same(picture.name(4096, 0.5), 'f4095', 'the last row')


def narrow_boxes(check):
    """A box that is a pixel wide stands for itself; narrower ones that begin in one pixel are told of together."""
    browser = check.browser
    check.show('graph', check.write('two.folded', 'main;aardvark 1\nmain;work;parse 10000\nmain;work;print 5000\n'))
    picture = Picture(browser)
    same([picture.name(2, 0.5), picture.name(2, 0.2 / picture.width)], ['work', 'aardvark'], 'names in the row')
    plain = picture.colour(2, 0.5)
    check.show('graph', check.write('alone.folded', 'main;work;parse 10000\nmain;work;print 5000\n'))
    same(picture.colour(2, 0.5), plain, 'the colour of work')
    many = ''.join(f'main;small{number:03} 1\n' for number in range(500))
    check.show('graph', '--least', '0', check.write('many.folded', f'main;first 1000000\n{many}main;wide 1000000\n'))
    share, told = 500 / 2000500, 'together 500, 0.025% of the whole'
    middle = (1000000 + 250) / 2000500
    same(picture.told(2, middle), ['500 boxes, each narrower than a pixel', told], 'tip of what is joined')
    same(browser.text('#status'), f'500 boxes, each narrower than a pixel · {told}', 'the line below')
    assert share * picture.width < 1, 'they are narrower than a pixel'
    picture.click(2, middle)
    same([fragment(browser), picture.focused()], ['', 'all'], 'after a click on what is joined')
    same([picture.name(2, 0.25), picture.name(2, 0.75)], ['first', 'wide'], 'the boxes beside them')
    picture.click(2, 0.75)
    same(fragment(browser), '#zoom=main/wide', 'after a click on a box')


def joined_colours(check):
    """What is joined has a colour of its own, that of matches where all match, another where some do, and steps back where none does."""
    browser = check.browser
    many = ''.join(f'main;{name}{number:04} 1\n' for name in ('a', 'b', 'c') for number in range(4000))
    for scheme, wanted in (('light', [(154, 160, 168), (169, 130, 187), (143, 60, 170), (227, 228, 232)]),
                           ('dark', [(93, 100, 110), (140, 88, 157), (195, 133, 214), (53, 55, 60)])):
        browser.prefer(scheme)
        check.show('graph', '--least', '0', check.write('many.folded', many))
        picture = Picture(browser)

        def look(what, *colours):
            for place, colour in enumerate(colours):
                found = picture.colour(2, (place + 0.5) / 3)
                # Between two places a pixel is of both, with some paper.
                for part, other in zip(found, colour):
                    near(part, other, f'{what} in {scheme}, place {place}: {found} for {colour}', 8)

        joined, some, match, dim = wanted
        look('what is joined', joined, joined, joined)
        same(search(browser, 'b'), '4,000 matched, 33.3%', 'a search')
        look('a search', dim, match, dim)
        search(browser, '[02468]$', 'regexp')
        look('some of each place', some, some, some)
    browser.prefer('light')


def narrow_windows(check):
    """The canvas is never larger than what is seen, however many rows there are."""
    browser = check.browser
    names = ';'.join(f'f{number}' for number in range(4000))
    path = check.write('deep.folded', f'{names} 1\n')
    try:
        for width, height, dots in ((960, 700, 1), (588, 700, 2), (368, 844, 2)):
            browser.send('Emulation.setDeviceMetricsOverride', width=width, height=height, deviceScaleFactor=dots, mobile=False)
            check.show('graph', path)
            picture = Picture(browser)
            same(browser.value("(({ width, height }) => [width, height])(document.getElementById('canvas'))"),
                 [dots * picture.width, dots * picture.height], f'the canvas in a window of {width}')
            near(picture.height, 0.7 * height, f'height of the picture in a window of {width}')
            same(len(picture.runs(0)), 1, f'boxes in the first row of pixels in a window of {width}')
            # Out from behind the line that names what is under a finger.
            browser.value("document.getElementById('picture').scrollIntoView()")
            browser.value("document.getElementById('picture').scrollTop = 1e9")
            browser.settle()
            same(Picture(browser).name(4000, 0.5), 'f3999', 'the last row')
    finally:
        browser.resize(*browser.size)


TESTS = [first_paint, widths, broken, root_below, root_below_at_first, zoom, keys, snapshots, snapshots_of_sources, lanes, differences,
         shares, shares_at_first, gone_from_the_depth, deep, narrow_boxes, joined_colours, narrow_windows]
