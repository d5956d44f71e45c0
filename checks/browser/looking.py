"""What the tests look at on an open page: rows of pixels, boxes under the pointer, the focused box."""
import json

from documents import raw_data_in

ROW = 18
PAPER = [(251, 251, 249), (27, 29, 32)]


def data_in(document):
    return json.loads(raw_data_in(document))


def same(found, wanted, what):
    assert found == wanted, f'{what}: found {found!r}, wanted {wanted!r}'


def near(found, wanted, what, most=1.0):
    assert abs(found - wanted) <= most, f'{what}: found {found}, wanted {wanted}'


def contains(text, part, what='the text'):
    assert part in text, f'{what}: {text!r} does not have {part!r}'


class Picture:
    """The picture on an open page."""

    def __init__(self, browser):
        self.browser = browser
        self.left, self.top, _, _ = browser.area('#picture')
        self.width, self.height = browser.value("(({ clientWidth, clientHeight }) => [clientWidth, clientHeight])"
                                                "(document.getElementById('picture'))")

    def point(self, depth, part, rows=None):
        """A point of the window: in the row of a depth, at that part of the width. With `rows` the root is below."""
        row = depth if rows is None else rows - 1 - depth
        scrolled = self.browser.value("document.getElementById('picture').scrollTop")
        return self.left + part * self.width, self.top + row * ROW + ROW / 2 - scrolled

    def told(self, depth, part, rows=None):
        """The lines of the tip there; none where there is no box."""
        self.browser.move(*self.point(depth, part, rows))
        return self.browser.value("document.getElementById('tip').hidden ? [] :"
                                  " [...document.querySelectorAll('#tip p')].map((line) => line.textContent)")

    def name(self, depth, part, rows=None):
        return (self.told(depth, part, rows) or [None])[0]

    def click(self, depth, part):
        self.browser.click(*self.point(depth, part))

    def pixels(self, depth, down=1):
        """The colours of a line of pixels in a row, above its letters."""
        flat = self.browser.value(f'''(() => {{ const canvas = document.getElementById('canvas');
            const across = canvas.getContext('2d').getImageData(0, {depth * ROW + down}, canvas.width, 1).data;
            return Array.from(across); }})()''')
        return [tuple(flat[place:place + 3]) for place in range(0, len(flat), 4)]

    def runs(self, depth):
        """The runs of one colour in a row, but for paper and for the pixels between: (left, right, colour)."""
        colours = self.pixels(depth)
        runs, begin = [], 0
        for place in range(1, len(colours) + 1):
            if place == len(colours) or colours[place] != colours[begin]:
                if place - begin > 1 and colours[begin] not in PAPER:
                    runs.append((begin, place, colours[begin]))
                begin = place
        return runs

    def colour(self, depth, part):
        return self.pixels(depth)[int(part * self.width)]

    def focused(self):
        """The name in what a screen reader hears of the focused box."""
        return self.heard().split(' · ')[0]

    def heard(self):
        return self.browser.value('''(() => { const id = document.getElementById('picture').getAttribute('aria-activedescendant');
            return id ? document.getElementById(id).getAttribute('aria-label') : ''; })()''')

    def ring(self):
        """The visible ring: its left edge and its width in the picture, and its row."""
        left, top, width, _ = self.browser.area('.ring:not([hidden])')
        return left - self.left, width, (top - self.top) / ROW


def fragment(browser):
    return browser.value('location.hash')


def table(browser):
    """The rows of the table of functions. Of two lines in a cell both are told, with a space between them."""
    return browser.value("""[...document.querySelectorAll('#functions tbody tr')].map((row) => [...row.cells].map((cell) =>
        [...cell.querySelectorAll('span')].map((line) => line.textContent).join(' ') || cell.textContent))""")


def search(browser, text, by='text'):
    """Types a search, as a reader would."""
    browser.value(f"document.getElementById('by').value = {json.dumps(by)}")
    browser.value("document.getElementById('find').value = ''; document.getElementById('find').focus()")
    browser.write(text)
    browser.value("document.getElementById('by').dispatchEvent(new Event('change', { bubbles: true }))")
    browser.settle()
    return browser.text('#matched')
