"""Tests of the way through a page: back and forth in the browser's history, by keys alone, and on a phone."""
import json

import documents
from looking import Picture, contains, fragment, near, same, search

FOCUS = '''(() => { const at = document.activeElement; const style = getComputedStyle(at);
    return [at.id || at.closest('[id]').id, at.textContent.trim().slice(0, 20), style.outlineStyle, parseFloat(style.outlineWidth)]; })()'''


def wait_for_fragment(browser, wanted):
    browser.wait_for(f'[{json.dumps(wanted)}, {json.dumps(wanted if wanted != "#" else "")}].includes(location.hash)')
    browser.settle()


def going_back(check):
    """What was set on the way stays; what a step brought goes with it."""
    browser = check.browser
    check.show('graph', 'parse.folded')
    picture = Picture(browser)
    picture.click(2, 0.5)
    same(search(browser, 'read'), '1 matched, 33.3%', 'a search while zoomed')
    browser.click_on('#below')
    same(fragment(browser), '#zoom=main/parse&find=read&root=below', 'fragment')
    browser.click_on('#back')
    wait_for_fragment(browser, '#find=read&root=below')
    same(browser.text('#matched'), '1 matched, 33.3%', 'the search stays')
    same([picture.name(depth, 0.3, rows=4) for depth in (0, 2)], ['all', 'parse'], 'the root stays below')
    browser.value('history.forward()')
    wait_for_fragment(browser, '#zoom=main/parse&find=read&root=below')
    browser.value('history.back()')
    wait_for_fragment(browser, '#find=read&root=below')
    browser.click_on('#functions tbody tr:nth-child(1) button')
    same(fragment(browser), '#callers=read&find=read&root=below', 'a function is a step')
    browser.click_on('#below')
    browser.value('history.back()')
    wait_for_fragment(browser, '#find=read')
    same(browser.text('#matched'), '1 matched, 33.3%', 'the search before the step')
    same(picture.name(0, 0.5), 'all', 'the root is above, as it was set')
    same(search(browser, 'parse'), '1 matched, 87.7%', 'another search')
    browser.value("location.hash = '#zoom=main/layout'")
    wait_for_fragment(browser, '#zoom=main/layout')
    same([browser.text('#matched'), picture.name(2, 0.5)], ['', 'layout'], 'an address that was written by hand')


def back_from_a_link(check):
    browser = check.browser
    check.show('graph', 'parse.folded', fragment='#zoom=main/parse/read')
    picture = Picture(browser)
    browser.value("document.getElementById('picture').focus()")
    browser.press('Escape')
    wait_for_fragment(browser, '#')
    same([len(picture.runs(depth)) for depth in range(4)], [1, 1, 2, 3], 'boxes after Escape')
    browser.press('ArrowDown')
    browser.press('ArrowDown')
    browser.press('Enter')
    wait_for_fragment(browser, '#zoom=main/parse')
    browser.press('ArrowDown')
    browser.press('Escape')
    wait_for_fragment(browser, '#')
    same(picture.focused(), 'tokenize', 'the focus stays where it was')
    browser.press('/')
    same(browser.value('document.activeElement.id'), 'find', 'a slash leads to the search')
    same(search(browser, 'read'), '1 matched, 33.3%', 'a search')
    browser.press('Enter')
    browser.press('Escape')
    same([browser.value("document.getElementById('find').value"), browser.text('#matched')], ['', ''], 'Escape ends the search first')


def back_to_a_snapshot(check):
    browser = check.browser
    check.show('graph', '--every', '2', 'parse.folded')
    Picture(browser).click(2, 0.5)
    browser.value("document.getElementById('snapshot').focus()")
    browser.press('ArrowLeft')
    same(fragment(browser), '#zoom=main/parse&drawing=1', 'a snapshot, zoomed')
    browser.click_on('#back')
    wait_for_fragment(browser, '#drawing=1')
    same(browser.text('#drawing-name'), 'the first 4 samples', 'the snapshot stays')


def dragging(check):
    """The end of a drag is no click."""
    browser = check.browser
    check.show('graph', 'parse.folded')
    picture = Picture(browser)
    for moved, wanted in ((60, ''), (2, '#zoom=main/parse')):
        x, y = picture.point(2, 0.5)
        for kind, to in (('mouseMoved', x), ('mousePressed', x), ('mouseMoved', x + moved), ('mouseReleased', x + moved)):
            browser.send('Input.dispatchMouseEvent', type=kind, x=to, y=y, button='left', clickCount=1)
        browser.settle()
        same(fragment(browser), wanted, f'after {moved} pixels')


def as_a_map(check):
    """In a chart the wheel brings closer what is under the pointer, a drag and keys move it, and the address has what is seen."""
    browser = check.browser
    path = check.place(check.show('chart', 'parse.folded', 'faster.folded'))
    browser.open(path)
    picture = Picture(browser)

    def part():
        browser.settle()
        browser.value('new Promise((done) => setTimeout(done, 400))')
        words = dict(word.split('=') for word in fragment(browser)[1:].split('&') if word)
        return float(words.get('from', 0)), float(words.get('to', 95))

    def mouse(kind, across, **more):
        x, y = picture.point(3, across)
        browser.send('Input.dispatchMouseEvent', type=kind, x=x, y=y, clickCount=1, **more)

    mouse('mouseWheel', 0.25, deltaX=0, deltaY=-400)
    begin, end = part()
    width = end - begin
    assert 30 < width < 60, f'the wheel shows {width} of 95'
    near(begin + 0.25 * width, 0.25 * 95, 'what is under the pointer', 0.1)
    same(browser.text('#functions-title'), 'Functions in this part', 'what the table is of')
    mouse('mouseWheel', 0.5, deltaX=0.1 * picture.width, deltaY=0)
    near(part()[0], begin + 0.1 * width, 'a wheel to the side', 0.1)
    mouse('mousePressed', 0.6, button='left')
    mouse('mouseMoved', 0.7, button='left', buttons=1)
    mouse('mouseMoved', 0.8, button='left', buttons=1)
    mouse('mouseReleased', 0.8, button='left')
    moved, _ = part()
    near(moved, begin - 0.1 * width, 'after a drag', 0.1)
    shown = picture.told(3, 0.3)
    browser.open(path, fragment(browser))
    same(Picture(browser).told(3, 0.3), shown, 'after a reload')
    browser.value("document.getElementById('picture').focus()")
    for key, wanted in (('>', (moved + width / 4, width)), ('<', (moved, width)), ('+', (moved + width / 6, width / 1.5)),
                        ('-', (moved, width))):
        browser.press(key)
        begin, end = part()
        near(begin, wanted[0], f'the left edge after {key}', 0.1)
        near(end - begin, wanted[1], f'the width after {key}', 0.1)
    picture.click(3, 0.3)
    same(fragment(browser), '#zoom=main/parse/tokenize&start=12', 'a click on a box')
    browser.press('Escape')
    browser.wait_for("location.hash.startsWith('#from=')")
    near(part()[0], moved, 'a step back', 0.1)
    browser.press('Escape')
    same(part(), (0, 95), 'a step further')
    for dead in ('#from=5', '#from=9&to=5', '#from=0&to=96', '#from=x&to=7'):
        browser.open(path, dead)
        same([fragment(browser), part()], ['', (0, 95)], dead)
    check.show('graph', 'parse.folded')
    mouse('mouseWheel', 0.25, deltaX=0, deltaY=-400)
    same(fragment(browser), '', 'a graph is no map')


def by_two_fingers(check):
    """Two fingers widen what is seen of a chart between them, and one moves it."""
    browser = check.browser
    browser.send('Emulation.setDeviceMetricsOverride', width=390, height=844, deviceScaleFactor=3, mobile=True)
    browser.send('Emulation.setTouchEmulationEnabled', enabled=True)
    try:
        check.show('chart', 'parse.folded', 'faster.folded')
        picture = Picture(browser)

        def touch(*steps):
            for kind, places in zip(('touchStart', *['touchMove'] * (len(steps) - 1)), steps):
                points = [dict(zip(('x', 'y'), picture.point(3, place)), id=number) for number, place in enumerate(places)]
                browser.send('Input.dispatchTouchEvent', type=kind, touchPoints=points)
                browser.settle()
            browser.send('Input.dispatchTouchEvent', type='touchEnd', touchPoints=[])
            browser.wait_for("location.hash.startsWith('#from=')")
            browser.value('new Promise((done) => setTimeout(done, 400))')
            begin, end = (float(word.split('=')[1]) for word in fragment(browser)[1:].split('&'))
            return begin, end - begin

        begin, width = touch((0.4, 0.6), (0.35, 0.65), (0.3, 0.7))
        near(width, 95 / 2, 'twice as far apart', 2)
        near(begin + width / 2, 95 / 2, 'the middle stays', 2)
        moved, same_width = touch((0.6,), (0.55,), (0.5,), (0.4,))
        near(same_width, width, 'one finger', 0.1)
        near(moved - begin, 0.2 * width, 'one finger moves it', 2)
    finally:
        browser.send('Emulation.setTouchEmulationEnabled', enabled=False)
        browser.resize(*browser.size)


def matches_in_turn(check):
    browser = check.browser
    check.show('graph', check.write('turns.folded', 'main;leaf 2\nmain;walk;walk;leaf 5\nmain;walk;other 3\nmain;work;leaf 10\n'))
    picture = Picture(browser)
    search(browser, 'leaf')
    found = []
    for button in ('next', 'previous', 'previous', 'next', 'next'):
        browser.click_on(f'#{button}')
        found.append(picture.heard().split(' of the whole')[0])
    first, second, third = 'leaf · 2, 10%', 'leaf · 5, 25%', 'leaf · 10, 50%'
    same(found, [first, third, second, third, first], 'the buttons for the next and the previous')
    browser.value(
        """((order) => { order.value = 'weight'; order.dispatchEvent(new Event('change')); })(document.getElementById('order'))""")
    found = []
    for button in ('next', 'next', 'next', 'previous'):
        browser.click_on(f'#{button}')
        found.append(picture.heard().split(' of the whole')[0])
    same([found, fragment(browser)], [[third, second, first, second], '#find=leaf&order=weight'], 'by weight, behind the lightest')
    browser.value("""((order) => { order.value = 'place'; order.dispatchEvent(new Event('change')); })(document.getElementById('order'))""")
    picture.click(2, 0.5)
    same(fragment(browser), '#zoom=main/walk&find=leaf', 'zoomed to where one match is')
    for _ in range(3):
        browser.click_on('#next')
    same([picture.heard().split(' of the whole')[0], fragment(browser)], [first, '#find=leaf'], 'a match outside of what is zoomed')


def keys_alone(check):
    """All that can be done is done by keys, and where the focus is can be seen."""
    browser = check.browser
    check.show('chart', 'parse.folded', 'faster.folded')
    reached = {}
    for _ in range(30):
        browser.press('Tab')
        place, text, style, width = browser.value(FOCUS)
        if place == 'picture':
            style = browser.value("getComputedStyle(document.querySelector('.ring:not([hidden])')).outlineStyle")
            width = browser.value("parseFloat(getComputedStyle(document.querySelector('.ring:not([hidden])')).outlineWidth)")
        assert style not in ('none', 'hidden') and width >= 2, f'the focus at {place} {text} is not seen: {style} {width}'
        reached[place, text] = True
        if (place, text) == ('lanes', 'faster.folded'):
            browser.press('Enter')
            same(fragment(browser), '#source=1', 'Enter on a lane')
            browser.press('Escape')
            wait_for_fragment(browser, '#')
        elif place == 'below':
            browser.press(' ')
            same(fragment(browser), '#root=below', 'a space on the switch')
            browser.press(' ')
        elif (place, text) == ('functions', 'tokenize'):
            browser.press('Enter')
            same(browser.text('#drawing-name'), 'callers and callees of tokenize', 'Enter on a function')
            break
    places = [place for place, _ in reached]
    wanted = ['sources', 'find', 'by', 'below', 'save-svg', 'save-png', 'print', 'help', 'lanes', 'picture', 'functions']
    same([place for place in wanted if place not in places], [], 'what keys do not reach')


def widening(check):
    """The lists are made wider by a drag and by keys, and closed, and the address remembers it."""
    browser = check.browser
    path = check.place(check.show('graph', 'parse.folded'))
    browser.open(path)

    def drag(by):
        left, top, width, height = browser.area('#divider')
        x, y = left + width / 2, top + height / 2
        for kind, to in (('mouseMoved', x), ('mousePressed', x), ('mouseMoved', x + by / 2), ('mouseMoved', x + by),
                         ('mouseReleased', x + by)):
            browser.send('Input.dispatchMouseEvent', type=kind, x=to, y=y, button='left', clickCount=1)
        browser.settle()

    def seen():
        picture = Picture(browser)
        lists = browser.area('#lists')[2]
        same([browser.value("document.getElementById('canvas').width"), len(picture.runs(3))], [picture.width, 3],
             'the picture is painted anew')
        return [fragment(browser), lists, picture.width + lists]

    first = seen()
    assert first[0] == '' and first[1] > 300, f'at first {first}'
    whole = first[2]
    drag(-100)
    wider = [f'#lists={first[1] + 100}', first[1] + 100, whole]
    same(seen(), wider, 'wider by a drag')
    browser.open(path, wider[0])
    same(seen(), wider, 'after a reload')
    browser.value("document.getElementById('divider').focus()")
    browser.press('ArrowRight')
    same(seen(), [f'#lists={first[1] + 80}', first[1] + 80, whole], 'narrower by a key')
    drag(first[1])
    same(seen(), ['#lists=0', 0, whole + 11], 'closed by a drag')
    same(browser.value("document.getElementById('listed').checked"), False, 'the switch')
    Picture(browser).click(2, 0.5)
    same(fragment(browser), '#zoom=main/parse&lists=0', 'a step')
    browser.click_on('#listed')
    same([fragment(browser), browser.area('#lists')[2]], ['#zoom=main/parse', first[1]], 'opened')
    browser.press('Escape')
    wait_for_fragment(browser, '#')
    same(seen(), first, 'opened, also behind a step back')


def on_a_phone(check):
    browser = check.browser
    browser.send('Emulation.setDeviceMetricsOverride', width=390, height=844, deviceScaleFactor=3, mobile=True)
    browser.send('Emulation.setTouchEmulationEnabled', enabled=True)
    try:
        for words in (('graph', 'parse.folded'), ('chart', 'parse.folded', 'faster.folded'), ('compare', 'parse.folded', 'faster.folded')):
            check.show(*words)
            same(browser.value('[document.documentElement.scrollWidth, innerWidth]'), [390, 390], f'width of {words}')
            picture = Picture(browser)
            assert picture.width > 350, f'the picture has {picture.width} of 390'
            same(browser.value("document.getElementById('canvas').width"), 3 * picture.width, 'the canvas has each dot')
            lists = browser.area('#lists')
            assert lists[1] >= picture.top + picture.height, 'the lists stand below the picture'
            check.screenshot(f'phone-{words[0]}')
        x, y = picture.point(2, 0.9)
        for wanted in ('', '#zoom=main/parse'):
            browser.send('Input.dispatchTouchEvent', type='touchStart', touchPoints=[{'x': x, 'y': y}])
            browser.send('Input.dispatchTouchEvent', type='touchEnd', touchPoints=[])
            browser.wait_for("document.getElementById('status').textContent.startsWith('parse · ')")
            browser.wait_for(f'location.hash === {json.dumps(wanted)}')
            same(picture.focused(), 'parse', 'what a tap names')
        left, top, width, height = browser.area('#status')
        assert top >= 0 and top + height <= 844, f'the status stands from {top} to {top + height} of 844'
    finally:
        browser.send('Emulation.setTouchEmulationEnabled', enabled=False)
        browser.resize(*browser.size)


def in_wide_windows(check):
    browser = check.browser
    try:
        browser.resize(2560, 1300)
        check.show('compare', 'parse.folded', 'faster.folded')
        picture = Picture(browser)
        assert picture.width > 1800, f'the picture has {picture.width} of 2560'
        near(picture.runs(3)[-1][1], picture.width, 'right edge of tokenize', 1.5)
        assert browser.area('#gone')[0] >= picture.left + picture.width, 'what is gone stands beside the picture'
    finally:
        browser.resize(*browser.size)


def first_run(check):
    """The command of README makes a page that opens, and the picture of one in OUTPUT is there."""
    text = (documents.TOP / 'README.md').read_text(encoding='utf-8')
    contains((documents.TOP / 'docs' / 'OUTPUT.md').read_text(encoding='utf-8'), '(page.png)', 'OUTPUT')
    same((documents.TOP / 'docs' / 'page.png').read_bytes()[:8], b'\x89PNG\r\n\x1a\n', 'the picture')
    example = 'examples/parse.folded'
    commands = [line.split() for line in text.splitlines() if ' graph --page ' in line and example in line]
    assert commands, f'README makes no page of {example}'
    words = commands[0][commands[0].index('graph'):]
    # Without the file that it writes: what is looked at here goes to standard output.
    at = words.index('-o')
    del words[at:at + 2]
    document = documents.page(check.program, [str(documents.TOP / example) if word == example else word for word in words])
    check.browser.open(check.place(document))
    same(Picture(check.browser).name(3, 0.9), 'tokenize', 'a box of the example')


TESTS = [going_back, back_from_a_link, back_to_a_snapshot, dragging, as_a_map, by_two_fingers, widening, matches_in_turn, keys_alone,
         on_a_phone, in_wide_windows, first_run]
