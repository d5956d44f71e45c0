"""Tests of the sources of a chart side by side, and of colours by package."""
import colorsys
import xml.etree.ElementTree

from looking import ROW, Picture, contains, fragment, near, same, search, table
from saving import SVG, named_boxes, saved, titles
from steps import wait_for_fragment

TICKS = "[...document.querySelectorAll('#axis span')].map((each) => [Number(each.textContent), each.getBoundingClientRect().left])"


def shown_beside(check):
    """The chart of both examples, side by side: the first has the rows from 0 on, and the second those from 4 on."""
    check.show('chart', 'parse.folded', 'faster.folded')
    check.browser.click_on('#beside')
    return Picture(check.browser)


def beside(check):
    """Each source begins at 0, in rows of its own, under its name, and both have one axis."""
    browser = check.browser
    picture = shown_beside(check)
    same(fragment(browser), '#beside=1', 'fragment')
    same(browser.value("document.getElementById('lanes').hidden"), True, 'the sources one after another')
    same([picture.name(row, 0.01) for row in (0, 1, 4, 5, 8)], ['parse.folded', 'main', 'faster.folded', 'main', None],
         'roots, and what stands on them')
    same([[round(edge * 57 / picture.width) for edge in picture.runs(row)[-1][:2]] for row in (1, 5)], [[0, 57], [0, 38]],
         'how far they go')
    wanted = [(0, 11), (11, 23), (26, 34), (34, 38)]
    same([(round(left * 57 / picture.width), round(right * 57 / picture.width)) for left, right, _ in picture.runs(7)], wanted,
         'boxes of the second')
    same(picture.told(4, 0.1), ['faster.folded', '38, 40% of the whole', 'own 0', 'from 0 to 38, in faster.folded'], 'tip of a source')
    same(picture.told(6, 0.1), ['parse', '23, 24.2% of the whole', 'own 0', 'from 0 to 23, in faster.folded'], 'tip of a box')
    for number, left in browser.value(TICKS):
        near(left - picture.left, number * picture.width / 57, f'tick {number}')
    same(search(browser, 'main'), '2 matched, 100%', 'a box that is in both')
    check.screenshot('beside')


def beside_zoomed(check):
    """What is zoomed is a part of one source, which the table has. Of the others the same time is seen."""
    browser = check.browser
    picture = shown_beside(check)
    picture.click(6, 10 / 57)
    same(fragment(browser), '#zoom=main/parse&start=57&beside=1', 'a box')
    same(browser.text('#functions-title'), 'Functions in this box', 'what the table is of')
    same(table(browser), [['tokenize', '12', '52.2%', '12', '52.2%'], ['read', '11', '47.8%', '11', '47.8%'],
                          ['parse', '0', '0%', '23', '100%']], 'table')
    same(picture.told(7, 0.9)[1], '12, 12.6% of the whole, 52.2% of what is zoomed', 'tip in the box')
    same(picture.told(2, 0.5)[1], '43, 45.3% of the whole', 'tip in the other source')
    browser.click_on('#beside')
    same([fragment(browser), Picture(browser).told(2, 0.5)[3]], ['#zoom=main/parse&start=57', 'from 57 to 80, in faster.folded'],
         'the same one after another')
    browser.click_on('#beside')
    same(fragment(browser), '#zoom=main/parse&start=57&beside=1', 'and side by side again')
    picture.click(4, 0.5)
    same([fragment(browser), browser.text('#functions-title')], ['#source=1&beside=1', 'Functions in faster.folded'],
         'the root of a source')
    contains(table(browser), ['read', '19', '50%', '19', '50%'], 'a function of the source')
    picture.click(4, 0.5)
    same(fragment(browser), '#beside=1', 'the root again')
    browser.value("document.getElementById('picture').focus()")
    for key, wanted in (('ArrowRight', 'faster.folded'), ('ArrowDown', 'main'), ('ArrowUp', 'faster.folded'), ('Home', 'parse.folded'),
                        ('End', 'faster.folded')):
        browser.press(key)
        same(picture.focused(), wanted, f'focus after {key}')
    browser.press('Enter')
    same(fragment(browser), '#source=1&beside=1', 'Enter on a root')
    browser.press('Escape')
    wait_for_fragment(browser, '#beside=1')


def beside_by_links(check):
    """A link shows a source, a part of all, or a box. A part is one of the timeline on which it was seen."""
    browser = check.browser
    path = check.place(check.show('chart', 'parse.folded', 'faster.folded'))
    browser.open(path, '#source=1&beside=1')
    same(Picture(browser).focused(), 'faster.folded', 'the focus')
    browser.open(path, '#from=30&to=57&beside=1')
    browser.wait_for("document.getElementById('functions-title').textContent !== 'Functions'")
    same([browser.text('#functions-title'), table(browser)[:2]],
         ['Functions in this part', [['tokenize', '13', '37.1%', '13', '37.1%'], ['read', '11', '31.4%', '11', '31.4%']]], 'a part of both')
    picture = Picture(browser)
    same([picture.name(row, 0.1) for row in (0, 4)], ['parse.folded', 'faster.folded'], 'roots')
    same(picture.told(4, 0.1)[1], '38, 40% of the whole, 22.9% of what is zoomed', 'how much of the part is of a source')
    browser.click_on('#beside')
    same(fragment(browser), '', 'all one after another')
    for dead in ('#from=30&to=58&beside=1', '#zoom=main/nothing&start=3&beside=1'):
        browser.open(path, dead)
        same(fragment(browser), '#beside=1', dead)
    check.show('chart', 'parse.folded', fragment='#beside=1')
    same([fragment(browser), browser.value("document.getElementById('beside-label').hidden")], ['', True], 'one source stands beside none')


def beside_saved(check):
    """A saved picture has the rows of all sources, or of the one in which something is zoomed, and the axis above them."""
    browser = check.browser
    picture = shown_beside(check)
    svg = xml.etree.ElementTree.fromstring(saved(check, 'svg'))
    same([float(svg.get('width')), float(svg.get('height'))], [picture.width, 8 * ROW + 16], 'size')
    same([title for title in titles(svg) if '.folded' in title],
         ['parse.folded · 57, 60% of the whole', 'faster.folded · 38, 40% of the whole'], 'titles of roots')
    texts = [text.text for text in svg.iter(f'{SVG}text')]
    contains(texts, 'parse.folded', 'a name')
    contains(texts, 'faster.folded', 'the other name')
    picture.click(6, 10 / 57)
    svg = xml.etree.ElementTree.fromstring(saved(check, 'svg'))
    same(float(svg.get('height')), 4 * ROW + 16, 'height of what is zoomed in one')
    near(named_boxes(svg)['tokenize'][0], 11 * picture.width / 23, 'left edge of tokenize')
    png = saved(check, 'png')
    same(int.from_bytes(png[20:24], 'big'), 2 * (4 * ROW + 16), 'height of the PNG')
    browser.value("window.dispatchEvent(new Event('beforeprint'))")
    contains(browser.value("[...document.querySelectorAll('#paper svg text')].map((text) => text.textContent)"), 'faster.folded',
             'the name on paper')


def colours_by_package(check):
    """Functions of one package have one hue, or each name has one of its own. A comparison has colours of changes alone."""
    browser = check.browser
    path = check.place(check.show('graph', check.write('packages.folded', 'net/http.serve 1\nnet/http.write 1\nos.read 1\nos.write 1\n')))

    def hues():
        colours = [Picture(browser).colour(1, (place + 0.5) / 4) for place in range(4)]
        return [round(36 * colorsys.rgb_to_hls(*(part / 255 for part in colour))[0]) for colour in colours]

    browser.open(path)
    first, second, third, fourth = hues()
    same([first == second, third == fourth, first == third], [True, True, False], 'hues by package')
    browser.click_on('#by-name')
    one, two, three, four = hues()
    same(len({one, two, three, four}), 4, 'hues by name')
    same(fragment(browser), '#colours=name', 'fragment')
    browser.open(path, '#colours=name')
    same(hues(), [one, two, three, four], 'hues of a link')
    browser.click_on('#by-name')
    same([hues(), fragment(browser)], [[first, second, third, fourth], ''], 'by package again')
    check.show('compare', 'parse.folded', 'faster.folded', fragment='#colours=name')
    same([fragment(browser), browser.value("document.getElementById('by-name-label').hidden")], ['', True], 'a comparison')


TESTS = [beside, beside_zoomed, beside_by_links, beside_saved, colours_by_package]
