"""Tests of what is arranged anew: what calls a function and what it calls, and heavy boxes first."""
from looking import Picture, contains, fragment, near, same, search, table
from steps import wait_for_fragment

NESTED = 'main;leaf 2\nmain;walk;walk;leaf 5\nmain;walk;other 3\nwork;walk 4\n'
MARKED = "[...document.querySelectorAll('#functions tr[aria-current] button')].map((button) => button.textContent)"


def callers(check):
    """A function that is clicked in the table stands between what calls it and what it calls, and a step back leads to all boxes again."""
    browser = check.browser
    path = check.place(check.show('graph', check.write('nested.folded', NESTED)))
    browser.open(path)
    picture = Picture(browser)
    whole = table(browser)
    place = [row[0] for row in whole].index('walk') + 1
    browser.click_on(f'#functions tbody tr:nth-child({place}) button')
    same([fragment(browser), browser.text('#drawing-name')], ['#callers=walk', 'callers and callees of walk'], 'after a click in the table')
    # Of 14 samples 12 have walk: 8 come from main, 4 from work. Of them 5 go on to walk and leaf, 3 to other, and 4 end.
    shown = [(0, 0.6, 'main', '8, 57.1% of the whole, 66.7% of walk', None),
             (0, 0.9, 'work', '4, 28.6% of the whole, 33.3% of walk', None),
             (1, 0.5, 'walk', '12, 85.7% of the whole, 100% of walk', 'own 4'),
             (2, 0.4, 'walk', '5, 35.7% of the whole, 41.7% of walk', 'own 0'),
             (2, 0.6, 'other', '3, 21.4% of the whole, 25% of walk', 'own 3'),
             (3, 0.4, 'leaf', '5, 35.7% of the whole, 41.7% of walk', 'own 5')]
    for row, part, *wanted in shown:
        same(picture.told(row, part), [text for text in wanted if text], f'tip in row {row} at {part}')
    same([picture.name(2, 0.9), picture.name(4, 0.1)], [None, None], 'beside what it calls')
    same([table(browser), browser.value(MARKED)], [whole, ['walk']], 'the table is of the whole, and the function is marked')
    same(search(browser, 'leaf'), '1 matched', 'a search')
    search(browser, '')
    picture.click(2, 0.4)
    same(fragment(browser), '#callers=walk&zoom=walk', 'a callee is zoomed')
    same([len(picture.runs(row)) for row in range(4)], [2, 1, 1, 1], 'the callers stay as they are')
    browser.open(path, fragment(browser))
    near(picture.runs(3)[0][1], picture.width, 'right edge of leaf after a reload', 1.5)
    picture.click(0, 0.9)
    same(fragment(browser), '#callers=walk&up=work', 'a caller is zoomed')
    same([len(picture.runs(row)) for row in range(4)], [1, 1, 2, 1], 'the callees are seen again')
    check.screenshot('callers')
    for wanted in ('#callers=walk&zoom=walk', '#'):
        browser.press('Escape')
        wait_for_fragment(browser, wanted)
    same([len(picture.runs(row)) for row in range(5)], [1, 2, 3, 2, 1], 'all boxes again')


def callers_by_keys(check):
    """A key on a box shows the callers of its function, and keys go up and down from it."""
    browser = check.browser
    check.show('graph', check.write('nested.folded', NESTED))
    picture = Picture(browser)
    browser.value("document.getElementById('picture').focus()")
    browser.press('c')
    same([fragment(browser), browser.value("document.getElementById('callers').disabled")], ['', True], 'all samples have no callers')
    for key in ('ArrowDown', 'ArrowDown', 'ArrowLeft'):
        browser.press(key)
    same(picture.focused(), 'leaf', 'the focused box')
    browser.press('c')
    same([fragment(browser), picture.focused(), picture.ring()[2]], ['#callers=leaf', 'leaf', 3.0], 'after the key')
    for key, wanted in (('ArrowUp', 'walk'), ('ArrowRight', 'main'), ('ArrowUp', 'main'), ('ArrowLeft', 'walk'), ('ArrowUp', 'walk'),
                        ('ArrowDown', 'walk'), ('ArrowDown', 'leaf'), ('ArrowDown', 'leaf')):
        browser.press(key)
        same(picture.focused(), wanted, f'focus after {key}')
    for key in ('ArrowUp', 'ArrowUp', 'Enter'):
        browser.press(key)
    same(fragment(browser), '#callers=leaf&up=walk/walk', 'a caller is zoomed by keys')
    browser.click_on('#callers')
    same([fragment(browser), picture.focused()], ['#callers=walk', 'walk'], 'the button shows those of the focused box')
    browser.press('Escape')
    wait_for_fragment(browser, '#callers=leaf&up=walk/walk')
    browser.value("document.getElementById('picture').focus()")
    browser.value("location.hash = '#callers=walk&root=below'")
    wait_for_fragment(browser, '#callers=walk&root=below')
    same([picture.name(row, 0.1) for row in range(4)], ['leaf', 'walk', 'walk', 'main'], 'with the root below callers stand below')


def callers_of_links(check):
    """An address names the function, also where that has a long name; a function that is not there is a dead link."""
    browser = check.browser
    long = 'a' * 5000
    document = check.show('graph', check.write('long-name.folded', f'main;{long};b 1\n;c 1\n'))
    for asked, wanted in ((f'#function={document_names(browser).index(long)}', 'callers and callees of ' + 'a' * 100 + '…'),
                          ('#callers=', 'callers and callees of (empty name)')):
        browser.open(check.place(document), asked)
        same([fragment(browser), browser.text('#drawing-name')], [asked, wanted], asked)
    for dead in ('#callers=nothing', '#callers=all', '#function=99', '#callers=nothing&up=main'):
        browser.open(check.place(document), dead)
        contains(browser.text('#status'), 'No box here has the path of this address', dead)
        same([fragment(browser), browser.text('#drawing-name')], ['', ''], dead)
    check.show('graph', '--every', '1', check.write('nested.folded', NESTED), fragment='#callers=other')
    same(browser.text('#drawing-name'), 'all samples · callers and callees of other', 'of all samples')
    browser.value("document.getElementById('snapshot').focus()")
    browser.press('Home')
    same(browser.text('#drawing-name'), 'the first sample · other is not here', 'in a snapshot without the function')
    same(browser.happened('Runtime.exceptionThrown'), [], 'faults of a picture without boxes')
    browser.press('End')
    same(Picture(browser).name(2, 0.5), 'other', 'in all samples again')


def document_names(browser):
    return browser.value("JSON.parse(document.getElementById('data').textContent).names")


def callers_compared(check):
    """Both profiles are compared by the ways that lead to a function, and from it."""
    browser = check.browser
    before = check.write('calls-before.folded', 'a;read;copy 4\nb;read;copy 2\nc;read 1\n')
    after = check.write('calls-after.folded', 'a;read;copy 3\nb;read 6\nd;read;copy 3\n')
    check.show('compare', before, after, fragment='#callers=read')
    picture = Picture(browser)
    told = [(picture.told(row, part)[0], picture.told(row, part)[-1]) for row, part in ((0, 0.1), (0, 0.6), (0, 0.9), (1, 0.5), (2, 0.1))]
    same(told, [('b', 'before 2: +200%'), ('a', 'before 4: −25%'), ('d', 'before 0: new'),
                ('read', 'before 7: +71.4%'), ('copy', 'before 6: ±0%')], 'ways that lead to read, and from it')
    picture.click(0, 0.1)
    browser.click_on('#before')
    same(fragment(browser), '#callers=read&up=b&drawing=0', 'the same in the profile before')
    same(picture.told(0, 0.5)[-1], 'after 6: +200%', 'what is zoomed there')


def callers_in_a_chart(check):
    """The callers of a function in a chart are of all its samples, and go by no time."""
    browser = check.browser
    check.show('chart', check.write('chart.folded', 'main;read 2\nmain 1\nmain;read 3\nwork;read 1\n'), fragment='#callers=read')
    picture = Picture(browser)
    same([picture.told(row, 0.1) for row in range(2)], [['main', '5, 71.4% of the whole, 83.3% of read'],
                                                        ['read', '6, 85.7% of the whole, 100% of read', 'own 6']], 'tips')
    same(browser.value("document.getElementById('lanes').hidden"), True, 'sources have no place')
    browser.value("location.hash = ''")
    wait_for_fragment(browser, '#')
    same(browser.value("document.getElementById('lanes').hidden"), False, 'they have one in time')


def heavy_first(check):
    """A switch has the heaviest of what a function calls stand first."""
    browser = check.browser
    check.show('graph', 'parse.folded', fragment='#zoom=main/layout')
    picture = Picture(browser)
    browser.click_on('#heavy')
    same([fragment(browser), picture.name(3, 0.1)], ['#zoom=main/layout&heavy=1', 'measure'], 'what is zoomed stays')
    browser.press('Escape')
    wait_for_fragment(browser, '#heavy=1')
    order = [picture.name(2, part) for part in (0.1, 0.95)], [picture.name(3, part) for part in (0.1, 0.7, 0.9)]
    same(order, (['parse', 'layout'], ['tokenize', 'read', 'measure']), 'the heaviest first')
    browser.click_on('#heavy')
    same([fragment(browser), picture.name(2, 0.05)], ['', 'layout'], 'in the order of names again')
    check.show('chart', 'parse.folded')
    same(browser.value("document.getElementById('heavy-label').hidden"), True, 'a chart goes by time')


TESTS = [callers, callers_by_keys, callers_of_links, callers_compared, callers_in_a_chart, heavy_first]
