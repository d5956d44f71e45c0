"""Tests of a page on a phone: what a tap does, where the line is that says so, and that tools stand still. And of what can be read on any
screen: the contrast of letters, and that a weight is told once.
"""
import contextlib
import json
import re

import profiles
from looking import ROW, Picture, contains, fragment, near, same, search
from painted_colours import DARK, LIGHT, colour, hsl, of_step
from safety import LETTERS, ratio

WIDTH, HEIGHT = 390, 844
# The contrast that WCAG asks for at AA of what has to be seen beside letters.
SHAPES = 3
TOOLS = ('#find', '#by', '#order', '#previous', '#next', '#back', '#callers', '#below', '#listed', '#save-svg', '#save-png', '#print',
         '#help', '#picture')
LONG = 'shop::storage::engine::compaction::LeveledCompaction<std::vector<Table>>::pick_and_merge_tables(Level const&, unsigned long)'
# Of each text that is seen its letters, their colour, and the colours behind them, from the nearest on.
COLOURS = '''(() => {
    const found = [];
    const walker = document.createTreeWalker(document.body, NodeFilter.SHOW_TEXT);
    while (walker.nextNode()) {
        const at = walker.currentNode.parentElement;
        const isSeen = walker.currentNode.data.trim() !== '' && !at.closest('script, style, :disabled') && at.getClientRects().length > 0;
        if (!isSeen) continue;
        const behind = [];
        for (let each = at; each; each = each.parentElement) behind.push(getComputedStyle(each).backgroundColor);
        found.push([walker.currentNode.data.trim().slice(0, 40), getComputedStyle(at).color, behind]);
    }
    for (const at of document.querySelectorAll('input[type="search"], select')) {
        const style = getComputedStyle(at);
        const behind = [style.backgroundColor, getComputedStyle(document.body).backgroundColor];
        found.push([at.id, style.color, behind]);
        if (at.placeholder) found.push([at.placeholder, getComputedStyle(at, '::placeholder').color, behind]);
    }
    return found;
})()'''
SHAPES_SEEN = '''(() => {
    const [paper, find] = [getComputedStyle(document.body).backgroundColor, getComputedStyle(document.getElementById('find'))];
    const accent = getComputedStyle(document.documentElement).getPropertyValue('--accent').trim();
    return { paper, edge: find.borderColor, accent };
})()'''


@contextlib.contextmanager
def phone(check):
    """A window as that of a phone, with a finger."""
    browser = check.browser
    browser.send('Emulation.setDeviceMetricsOverride', width=WIDTH, height=HEIGHT, deviceScaleFactor=3, mobile=True)
    browser.send('Emulation.setTouchEmulationEnabled', enabled=True)
    try:
        yield browser
    finally:
        browser.send('Emulation.setTouchEmulationEnabled', enabled=False)
        browser.resize(*browser.size)


def tap(browser, depth, part):
    """Taps a box of the picture, wherever that has been scrolled to."""
    x, y = Picture(browser).point(depth, part)
    browser.send('Input.dispatchTouchEvent', type='touchStart', touchPoints=[{'x': x, 'y': y}])
    browser.send('Input.dispatchTouchEvent', type='touchEnd', touchPoints=[])
    browser.settle()
    browser.value('new Promise((done) => setTimeout(done, 50))')
    browser.settle()


def tapping(check):
    """The first tap on a box names it, another one names another, and the second on the same zooms to it: on each kind of page."""
    with phone(check) as browser:
        for command, files, other in (('graph', 1, 0.02), ('chart', 2, 44.5 / 95), ('compare', 2, 0.02)):
            check.show(command, *('parse.folded', 'faster.folded')[:files])
            told = []
            for part in (0.4, other, 0.4, 0.4):
                tap(browser, 2, part)
                told.append([browser.text('#status').split(' · ')[0], fragment(browser).split('&')[0]])
            same(told, [['parse', ''], ['layout', ''], ['parse', ''], ['parse', '#zoom=main/parse']], f'taps on a {command}')


def status_in_sight(check):
    """Wherever a page is scrolled to, the line that names a box is seen, with a long name and the weight, and nothing of it is cut."""
    with phone(check) as browser:
        many = ''.join(f'main;{LONG};step{number:02} 3\n' for number in range(40))
        check.show('graph', '--least', '0', check.write('long.folded', many))
        tap(browser, 2, 0.5)
        contains(browser.text('#status'), f'{LONG} · 120, 100% of the whole', 'what a tap says')
        for part in (0, 0.3, 0.6, 1):
            browser.value(f'scrollTo(0, {part} * document.documentElement.scrollHeight)')
            browser.settle()
            left, top, width, height = browser.area('#status')
            assert left >= 0 and left + width <= WIDTH and top >= 0 and top + height <= HEIGHT, (
                f'{part} down the status stands from {top} to {top + height}')
            cut = browser.value("(({ scrollHeight, clientHeight }) => scrollHeight - clientHeight)(document.getElementById('status'))")
            assert cut <= 1, f'{cut} pixels of the status are cut'
            over = browser.value(f'document.elementFromPoint({left + width / 2}, {top + height / 2}).id')
            same(over, 'status', f'what lies over the status {part} down')
        last = browser.value("document.querySelector('#functions-more:not([hidden]), #functions tbody tr:last-child')"
                             '.getBoundingClientRect().bottom')
        assert last <= top, f'the end of the lists is at {last}, behind the status at {top}'


def lists_near(check):
    """Below a picture of few rows the lists follow at once; a deep one leaves room for them, also while callers are looked at."""
    with phone(check) as browser:
        for words, wanted in ((('graph', 'shop.folded'), 15 * ROW), (('chart', 'parse.folded', 'faster.folded'), 168),
                              (('graph', check.write('deep.folded', ';'.join(['f'] * 90) + ' 1\n')), 0.7 * HEIGHT)):
            check.show(*words)
            for asked in ('', '#callers=parse', '#beside=1'):
                browser.value(f'location.hash = {json.dumps(asked)}')
                browser.settle()
                picture, lists = browser.area('#picture'), browser.area('#lists')
                near(picture[3], wanted, f'the height of the picture of {words} at {asked}')
                assert 0 < lists[1] - picture[1] - picture[3] < 50, f'the lists of {words} stand at {lists[1]}, below {picture}'


def tools_in_place(browser):
    return [
        browser.value(
            f'''(({{ left, top }}) => [left + scrollX, top + scrollY])(document.querySelector('{tool}').getBoundingClientRect())''')
        for tool in TOOLS]


def tools_stand_still(check):
    """Whatever is searched for, named, zoomed or asked for, tools and picture stay where they are, in windows of any width."""
    browser = check.browser
    names = ''.join(f'main;function{number}_with_a_long_name_that_goes_on;inner{number % 7} 1\n' for number in range(2000))
    path = check.place(check.show('graph', '--least', '0', '--every', '500', '--focus', 'function', check.write('many.folded', names)))
    chart = check.place(check.show('chart', 'parse.folded', 'faster.folded'))
    for width in (WIDTH, 610, 900, 1200, 1900):
        browser.send('Emulation.setDeviceMetricsOverride', width=width, height=HEIGHT, deviceScaleFactor=1, mobile=False)
        browser.open(path)
        first = tools_in_place(browser)
        for text in ('function', 'nothing', '(', ''):
            search(browser, text, 'regexp')
            same(tools_in_place(browser), first, f'where tools stand in {width} while {text!r} is searched for')
            cut = browser.value("(({ scrollWidth, clientWidth }) => scrollWidth - clientWidth)(document.getElementById('matched'))")
            assert cut <= 0, f'{browser.text("#matched")!r} is cut in {width}'
        for words in ('#drawing=1', '#zoom=main', '#callers=main', '#callers=function7_with_a_long_name_that_goes_on',
                      '#heavy=1&find=inner'):
            browser.value(f'location.hash = {json.dumps(words)}')
            browser.settle()
            same(tools_in_place(browser), first, f'where tools stand in {width} at {words}')
        browser.open(chart)
        first = tools_in_place(browser)
        for words in ('#source=1', '#callers=parse', '#beside=1'):
            browser.value(f'location.hash = {json.dumps(words)}')
            browser.settle()
            # What has no lanes has more room for the picture.
            same(tools_in_place(browser)[:-1], first[:-1], f'where tools stand in {width} at {words} of a chart')
    browser.resize(*browser.size)


def shown_colour(text, behind=()):
    """A colour as browsers tell it, over those behind it where it lets them through."""
    if text.startswith('#'):
        return colour(text)
    red, green, blue, *alpha = (float(number) for number in re.findall('[0-9.]+', text))
    much = alpha[0] if alpha else 1
    rest = shown_colour(behind[0], behind[1:]) if behind else (255, 255, 255)
    return tuple(much * own + (1 - much) * its for own, its in zip((red, green, blue), rest))


def contrast(check):
    """Letters have the contrast that WCAG asks for at AA, on each kind of page, light and dark, and so have edges and lines."""
    browser = check.browser
    for scheme, palette in (('light', LIGHT), ('dark', DARK)):
        browser.prefer(scheme)
        pages = (('graph', '--least', '5', 'parse.folded'), ('chart', 'parse.folded', 'faster.folded'),
                 ('compare', 'parse.folded', 'faster.folded'))
        for words in pages:
            check.show(*words, fragment='#find=parse')
            browser.value("for (const each of document.querySelectorAll('details')) each.open = true")
            Picture(browser).told(1, 0.5)
            seen = browser.value(COLOURS)
            assert len(seen) > 40, f'{len(seen)} texts are seen of {words}'
            for text, ink, behind in seen:
                back = shown_colour(behind[0], behind[1:])
                found = ratio(shown_colour(ink, behind), back)
                assert found >= LETTERS, f'{text!r} of {words} in {scheme} has the contrast {found:.2f}: {ink} on {back}'
            shapes = browser.value(SHAPES_SEEN)
            for name in ('edge', 'accent'):
                found = ratio(shown_colour(shapes[name]), shown_colour(shapes['paper']))
                assert found >= SHAPES, f'{name} in {scheme} has the contrast {found:.2f}'
        painted_contrast(scheme, palette)
    browser.prefer('light')


def painted_contrast(scheme, palette):
    """The same of what is painted: each letter on each colour that it may stand on."""
    plain = [hsl(hue * 10, palette.plain[0], palette.plain[1] + 4 * step) for hue in range(36) for step in range(3)]
    changes = [of_step(palette, step, is_more) for step in range(11) for is_more in (False, True)]
    backs = {'ink': [*plain, *changes, *map(colour, (palette.root, palette.paper, palette.dim))],
             'match_ink': [colour(palette.match)], 'dim_ink': [*map(colour, (palette.dim, palette.paper))]}
    for ink, those in backs.items():
        for back in those:
            found = ratio(colour(getattr(palette, ink)), back)
            assert found >= LETTERS, f'{ink} in {scheme} has the contrast {found:.2f} on {back}'
    assert ratio(colour(palette.line), colour(palette.paper)) >= SHAPES, f'lines in {scheme}'


# All that a page says but for the line below the picture: its texts, its tips, and what screen readers are told of no box.
SAID = '''[document.body.innerText.replace(document.getElementById('status').innerText, ''),
    ...Array.from(document.querySelectorAll('[title]'), (each) => each.title)].join('\\n')'''


def weights_once(check):
    """A weight is told once, in one unit. Its exact number is on the line below the picture alone, of whatever is pointed at."""
    browser = check.browser
    weights = {'work': 1_234_567_891, 'wait': 2_500_003, 'poll': 1_507}
    stacks = [(['main', name], [weight]) for name, weight in weights.items()]
    time = check.write('once.pb', profiles.profile([('cpu', 'nanoseconds')], stacks))
    other = check.write('other.pb', profiles.profile([('cpu', 'nanoseconds')],
                                                     [(['main', 'work'], [2_000_000_017]), (['main', 'gone'], [3_000_019])]))
    for words in (('graph', time), ('chart', time, other), ('compare', other, time)):
        check.show(words[0], '--least', '0', *words[1:], fragment='#find=w')
        browser.value("document.getElementById('sources').open = true")
        picture = Picture(browser)
        told = picture.told(2, 0.2)
        contains(' · '.join(told), 'work · 1.23 s, ', f'the tip of {words[0]}')
        contains(browser.text('#status'), 'work · 1.23 s (1,234,567,891 nanoseconds), ', f'the status of {words[0]}')
        said = browser.value(SAID)
        same([text for text in ('nanoseconds', '(1,', ',567,', ',003', ',507') if text in said], [],
             f'exact numbers that {words[0]} says elsewhere')
        for line in (told, browser.text('#status').split(' · ')):
            # Its weight, and the weight of its own; of a comparison that in the other profile, too.
            weighed = ' '.join(part for part in line if not part.startswith('from '))
            same([weighed.count('1.23 s'), weighed.count('2 s')], [2, int(words[0] == 'compare')], f'how often weights are told: {line}')
        browser.move(*middle(browser, '#functions tbody tr:nth-child(1)'))
        zero = '0 ns · after 2.5 ms (2,500,003 nanoseconds)'
        exact = {'compare': f'own before {zero} · total before {zero}', 'chart': 'own 3.23 s (3,234,567,908 nanoseconds) · total 3.23 s'}
        contains(browser.text('#status'), exact.get(words[0], 'own 1.23 s (1,234,567,891 nanoseconds) · total 1.23 s'),
                 f'the status of a function of {words[0]}')
        browser.move(1, 1)
    browser.move(*middle(browser, '#gone-list button'))
    same(browser.text('#status'), 'gone · before 3 ms (3,000,019 nanoseconds) · own 3 ms (3,000,019 nanoseconds)',
         'the status of what is gone')
    check.show('chart', '--least', '0', time, other)
    browser.move(*middle(browser, '#lanes button'))
    same(browser.text('#status'), 'once.pb: 1.24 s (1,237,069,401 nanoseconds) of cpu', 'the status of a source')
    browser.move(1, 1)
    contains(browser.text('#status'), 'all · 3.24 s (3,240,069,437 nanoseconds), ', 'the focused box again')


def middle(browser, selector):
    left, top, width, height = browser.area(selector)
    return left + width / 2, top + height / 2


TESTS = [tapping, status_in_sight, lists_near, tools_stand_still, contrast, weights_once]
