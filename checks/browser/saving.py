"""Tests of what leaves the page: SVG, PNG and paper; and of the letters in boxes, which the SVG has as text."""
import base64
import re
import xml.etree.ElementTree

from looking import ROW, Picture, contains, near, same, search
from painted_words import forms, is_front

SVG = '{http://www.w3.org/2000/svg}'
# The colours of twelve points of a PNG, twice as large, and of the canvas, above the letters.
PIXELS = '''(async () => {
    const image = new Image();
    image.src = 'data:image/png;base64,%s';
    await image.decode();
    const copy = Object.assign(document.createElement('canvas'), { width: image.width, height: image.height });
    const context = copy.getContext('2d');
    context.drawImage(image, 0, 0);
    const seen = document.getElementById('canvas').getContext('2d');
    const points = [0, 1, 2, 3].flatMap((row) => [0.1, 0.5, 0.9].map((part) => [Math.round(part * image.width / 2), row * 18 + 2]));
    return points.map(([x, y]) => [`${x}, ${y}`, [...context.getImageData(2 * x, 2 * y, 1, 1).data], [...seen.getImageData(x, y, 1, 1).data]]);
})()'''


def saved(check, kind):
    """The bytes of what the button saves."""
    folder = check.folder / 'saved'
    folder.mkdir(exist_ok=True)
    for old in folder.iterdir():
        old.unlink()
    check.browser.send('Browser.setDownloadBehavior', behavior='allow', downloadPath=str(folder))
    check.browser.click_on(f'#save-{kind}')
    check.wait(lambda: [path for path in folder.iterdir() if path.suffix == f'.{kind}' and path.stat().st_size > 0], f'a saved {kind}')
    return next(folder.glob(f'*.{kind}')).read_bytes()


def named_boxes(svg):
    """The left edge and the width of the box under each text."""
    elements = [element for element in svg.iter() if element.tag in (f'{SVG}rect', f'{SVG}text')]
    return {text.text: (float(box.get('x')), float(box.get('width')))
            for box, text in zip(elements, elements[1:]) if text.tag == f'{SVG}text'}


def saving(check):
    browser = check.browser
    check.show('graph', 'parse.folded')
    picture = Picture(browser)
    picture.click(2, 0.5)
    root = xml.etree.ElementTree.fromstring(saved(check, 'svg'))
    near(float(root.get('width')), picture.width, 'width of the SVG')
    boxes = named_boxes(root)
    same(sorted(boxes), ['all', 'main', 'parse', 'read', 'tokenize'], 'boxes of the SVG')
    near(boxes['read'][1], 19 * picture.width / 50, 'width of read in the SVG', 1.5)
    near(boxes['tokenize'][0], 19 * picture.width / 50, 'left edge of tokenize in the SVG')
    png = saved(check, 'png')
    same(png[:8], b'\x89PNG\r\n\x1a\n', 'the beginning of the PNG')
    size = [int.from_bytes(png[16:20], 'big'), int.from_bytes(png[20:24], 'big')]
    same(size, [2 * picture.width, 2 * 4 * ROW], 'size of the PNG')
    inks = browser.value(PIXELS % base64.b64encode(png).decode('ascii'))
    same(len(inks), 12, 'points of the PNG and of the canvas')
    for place, of_png, of_canvas in inks:
        same(of_png, of_canvas, f'the colour at {place}')
    assert len({tuple(of_png) for _, of_png, _ in inks}) > 3, 'the PNG has the colours of several boxes'


def titles(svg):
    return [title.text for group in svg.iter(f'{SVG}g') for title in group.findall(f'{SVG}title')]


def saving_all_rows(check):
    """What is scrolled away is saved too, and what is out of the zoom is not. Each box has its title."""
    browser = check.browser
    names = ';'.join(f'f{number}' for number in range(200))
    check.show('graph', check.write('high.folded', f'{names} 1\nother 3\n'))
    browser.value("document.getElementById('picture').scrollTop = 1e9")
    browser.settle()
    svg = xml.etree.ElementTree.fromstring(saved(check, 'svg'))
    same(list(named_boxes(svg)), ['all', 'f0', 'other', *(f'f{number}' for number in range(1, 200))], 'all rows')
    same(svg.find(f'{SVG}title').text, 'high.folded · Flame graph of 1 source: 4, 202 boxes', 'the title says the total')
    same(titles(svg)[:3], ['all · 4, 100% of the whole', 'f0 · 1, 25% of the whole', 'other · 3, 75% of the whole'], 'titles of boxes')
    browser.value("location.hash = '#zoom=other&root=below'")
    browser.wait_for("document.getElementById('back').disabled === false")
    browser.settle()
    svg = xml.etree.ElementTree.fromstring(saved(check, 'svg'))
    same([float(svg.get('height')), titles(svg)], [2 * ROW, ['all · 4, 100% of the whole, 100% of what is zoomed',
                                                             'other · 3, 75% of the whole, 100% of what is zoomed']], 'what is zoomed')
    check.show('compare', 'parse.folded', 'faster.folded')
    contains(titles(xml.etree.ElementTree.fromstring(saved(check, 'svg'))),
             'parse · 31, 81.6% of the whole · before 50: −38%', 'titles of a comparison')


def saving_large_pictures(check):
    """A PNG that no canvas has room for in two dots a pixel has one, and where there is no room at all, the page says so."""
    browser = check.browser
    names = ';'.join(f'f{number}' for number in range(600))
    check.show('graph', check.write('higher.folded', f'{names} 1\n'))
    width = Picture(browser).width
    png = saved(check, 'png')
    same([int.from_bytes(png[place:place + 4], 'big') for place in (16, 20)], [width, 601 * ROW], 'size of the PNG')
    check.show('graph', check.write('highest.folded', f'{names};{names};{names} 1\n'))
    browser.click_on('#save-png')
    same(browser.text('#status'), f'A PNG of {width} by {1801 * ROW:,} pixels is too large for this browser. An SVG is not.', 'status')
    svg = xml.etree.ElementTree.fromstring(saved(check, 'svg'))
    same(float(svg.get('height')), 1801 * ROW, 'height of the SVG')


def saving_lanes(check):
    browser = check.browser
    check.show('chart', 'parse.folded', 'faster.folded')
    picture = Picture(browser)
    search(browser, 'measure')
    browser.settle()
    svg = xml.etree.ElementTree.fromstring(saved(check, 'svg'))
    lanes = {name: place for name, place in named_boxes(svg).items() if name.endswith('.folded')}
    same(list(lanes), ['parse.folded', 'faster.folded'], 'the lanes in the SVG')
    near(lanes['faster.folded'][0], 57 * picture.width / 95, 'left edge of the second lane')
    *ticks, line = [float(box.get('x')) for box in svg.iter(f'{SVG}rect') if box.get('width') == '1']
    near(line, 57 * picture.width / 95, 'the line between the sources')
    near(ticks[1], 10 * picture.width / 95, 'the second tick of the axis')
    found = [box for box in svg.iter(f'{SVG}rect') if box.get('fill') == 'hsl(285, 48%, 45%)']
    same(len(found), 2, 'matches in the SVG')


def lettering(check):
    """A text stands inside of its box: whole where it fits, else as a shorter form, and else cut with an ellipsis."""
    browser = check.browser
    names = ['a', 'main', 'some::rather::long::name', 'été', '\u4f60\u597d\u4e16\u754c\u4f60\u597d', '😀' * 8, 'WWWWWWWWWW', 'מה שלומך']
    weights = [1, 2, 3, 5, 8, 13, 21, 34]
    path = check.write('letters.folded', ''.join(f'{name};{name}{weight} {weight}\n' for name in names for weight in weights))
    check.show('compare', 'parse.folded', path)
    browser.value("window.dispatchEvent(new Event('beforeprint'))")
    browser.prefer('light', media='print')
    # At the size at which it is seen.
    browser.value("document.querySelector('#paper svg').style.maxWidth = 'none'")
    boxes = browser.value('''[...document.querySelectorAll('#paper svg text')].map((text) =>
        [text.textContent, text.getComputedTextLength(), Number(text.previousElementSibling.getAttribute('width'))])''')
    browser.prefer('light')
    whole = {'all', *names, *(f'{name}{weight}' for name in names for weight in weights)}
    cut = 0
    for text, length, width in boxes:
        assert length <= width + 0.5, f'{text}: {length} in a box of {width}'
        if text.endswith('…'):
            cut += 1
            assert any(is_front(text, forms(name)[-1]) for name in whole), f'{text} is the beginning of no name'
        else:
            assert any(re.sub(' ([+−±][0-9.,]+%|new)$', '', text) in forms(name) for name in whole), f'{text} is no name'
    assert cut > 5 and len(boxes) - cut > 5, f'{cut} of {len(boxes)} are cut'
    contains([text for text, _, _ in boxes], 'all +1,121%', 'a name with its change')


def print_button(check):
    browser = check.browser
    check.show('graph', 'parse.folded')
    browser.value('window.print = () => { window.asked = true; }; 0')
    browser.click_on('#print')
    same(browser.value('window.asked'), True, 'the button prints')


def printing(check):
    browser = check.browser
    check.show('graph', 'parse.folded')
    browser.prefer('dark')
    browser.value("window.dispatchEvent(new Event('beforeprint'))")
    browser.prefer('dark', media='print')
    same(browser.value("getComputedStyle(document.getElementById('tools')).display"), 'none', 'the tools on paper')
    names = browser.value("[...document.querySelectorAll('#paper svg text')].map((text) => text.textContent)")
    same(names[:4] + names[5:], ['all', 'main', 'layout', 'parse', 'read', 'tokenize'], 'names on paper')
    assert names[4][-1] == '…' and 'measure'.startswith(names[4][:-1]), f'measure is cut to {names[4]}'
    same(browser.value("document.querySelector('#paper svg rect').getAttribute('fill')"), '#fbfbf9', 'paper is light')
    assert browser.area('#paper svg')[2] > 100, 'the picture on paper is seen'
    browser.value("window.dispatchEvent(new Event('afterprint'))")
    same(browser.value("document.getElementById('paper').children.length"), 0, 'the picture on paper goes')
    browser.prefer('light')
    pages = browser.send('Page.printToPDF', landscape=True)
    same(pages['data'][:5], 'JVBER', 'the beginning of the PDF')


TESTS = [saving, saving_all_rows, saving_large_pictures, saving_lanes, lettering, printing, print_button]
