"""Tests of what must not happen: names that run, requests that go out, letters that nobody can read."""
import colorsys
import html.parser
import http.server
import re
import socketserver
import threading
import xml.etree.ElementTree

from looking import Picture, contains, data_in, same, search
from saving import saved

RUN = 'window.hostile=1'
HOSTILE = [
    f'</script><script>{RUN}</script>', f'<!--<script>{RUN}//', ']]>', f'<img src=x onerror="{RUN}">', '"\'`${1}', '&lt&#60b&amp',
    '\u2028line\u2029', '\u202egnp.exe\u202c', '\u200fmark\u200e', '\x00\x01\x1b[31m\x7f', '\r', '\u0085', '😀👩‍👩‍👧',
    '\ufeff\ufffe\uffff', '__proto__', 'constructor', f'javascript:{RUN}', '\\u003c\\', '{{1}}', 'é́' * 40, 'שלום עולם',
]
SHOWN = {
    '\u2028line\u2029': '[U+2028]line[U+2029]',
    '\u202egnp.exe\u202c': '[U+202E]gnp.exe[U+202C]',
    '\u200fmark\u200e': '[U+200F]mark[U+200E]',
    '\x00\x01\x1b[31m\x7f': '[U+0000][U+0001][U+001B][31m[U+007F]',
    '\r': '[U+000D]',
    '\u0085': '[U+0085]',
    '\ufeff\ufffe\uffff': '[U+FEFF][U+FFFE][U+FFFF]',
}
LONG = 'y' * 1_000_000
# The contrast that WCAG asks for at AA of letters.
LETTERS = 4.5


class Elements(html.parser.HTMLParser):
    """The elements of a document, and the text of its scripts, as another reader of HTML sees them."""

    def __init__(self, text):
        super().__init__()
        self.names = []
        self.feed(text)

    def handle_starttag(self, tag, attrs):
        self.names.append(tag)


def hostile(check):
    browser = check.browser
    lines = ''.join(f'{name} 10\n' for name in HOSTILE) + f'{LONG} 10\n'
    title = f'</title></script><script>{RUN}</script>'
    path = check.write('hostile.folded', lines.encode('utf-8'))
    document = check.show('graph', '--title', title, path)
    same(sorted(data_in(document)['names'][1:]), sorted([*HOSTILE, LONG]), 'names in the data')
    plain = check.show('graph', 'parse.folded')
    same(Elements(document.decode()).names, Elements(plain.decode()).names, 'elements of the document, as of one without such names')
    document = check.show('graph', '--title', title, path)
    picture = Picture(browser)
    same(browser.text('#title'), title, 'title')
    wanted = [SHOWN.get(name, name) for name in sorted([*HOSTILE, LONG], key=lambda name: name.encode('utf-8'))]
    found = [picture.name(1, (place + 0.5) / len(wanted)) for place in range(len(wanted))]
    wanted = ['y' * 1500 + '… (1,000,000 characters)' if name == LONG else name for name in wanted]
    same(found, wanted, 'names in tips')
    cells = browser.value("[...document.querySelectorAll('#functions tbody td:first-child')].map((cell) => cell.textContent)")
    same(sorted(cells), sorted('y' * 200 + '…' if name.startswith('yyy') else name for name in wanted), 'names in the table')
    same(browser.value('document.scripts.length'), 2, 'scripts')
    same(browser.value("document.querySelectorAll('img, iframe, b, #title *, td script').length"), 0, 'elements made of names')
    search(browser, f'</script><script>{RUN}</script>', 'name')
    same(browser.text('#matched'), '1 matched, 4.55%', 'search for such a name')
    for key in ('own', 'total', 'name'):
        browser.click_on(f'th[data-key="{key}"] button')
    same(browser.value('typeof window.hostile'), 'undefined', 'what ran')
    same(browser.happened('Page.javascriptDialogOpening') + browser.happened('Runtime.exceptionThrown'), [], 'dialogs and faults')
    check.screenshot('hostile')
    svg = saved(check, 'svg')
    texts = [text.text for text in xml.etree.ElementTree.fromstring(svg).iter('{http://www.w3.org/2000/svg}text')]
    contains(texts, ']]>', 'texts of the SVG')
    gone = f'</ul><script>{RUN}</script>'
    stacks = {'before': f'one;{gone} 3\n', 'after': 'one 3\n'}
    before, after = [check.write(f'{name}.folded', (lines + stack).encode('utf-8')) for name, stack in stacks.items()]
    check.show('compare', before, after)
    contains(browser.text('#gone-list'), f'one › {gone}', 'a path that is gone')
    same(browser.value('typeof window.hostile'), 'undefined', 'what ran in the comparison')
    check.show('chart', path, check.write('<b>lane.folded', 'a 20\n'))
    contains(browser.text('#lanes'), '<b>lane.folded', 'a lane')
    same(browser.value('typeof window.hostile'), 'undefined', 'what ran in the chart')


class Counting(http.server.BaseHTTPRequestHandler):
    """Counts requests."""
    count = 0

    def do_GET(self):
        Counting.count += 1
        self.send_response(200)
        self.end_headers()

    def log_message(self, *_):
        pass


def offline(check):
    browser = check.browser
    check.show('graph', 'parse.folded')
    addresses = [event['request']['url'] for event in browser.happened('Network.requestWillBeSent')]
    outside = [address for address in addresses if not address.startswith(('file:', 'data:', 'about:'))]
    same(outside, [], 'requests of the page itself')
    server = socketserver.ThreadingTCPServer(('127.0.0.1', 0), Counting)
    threading.Thread(target=server.serve_forever, daemon=True).start()
    base = f'http://127.0.0.1:{server.server_address[1]}'
    browser.value('window.refused = []')
    browser.value('document.addEventListener("securitypolicyviolation", (event) => refused.push(event.effectiveDirective)) && 0')
    browser.value(f'''(async () => {{
        const add = (tag, set) => document.body.append(Object.assign(document.createElement(tag), set));
        await fetch('{base}/fetch').catch(() => 0);
        try {{ navigator.sendBeacon('{base}/beacon'); }} catch {{}}
        try {{ new WebSocket('{base.replace("http", "ws")}/socket'); }} catch {{}}
        try {{ new EventSource('{base}/events'); }} catch {{}}
        new Image().src = '{base}/image';
        add('script', {{ src: '{base}/script' }});
        add('script', {{ textContent: 'window.inline = 1' }});
        add('iframe', {{ src: '{base}/frame' }});
        add('link', {{ rel: 'stylesheet', href: '{base}/style' }});
        add('style', {{ textContent: '@import url({base}/import); body {{ opacity: 0.5 }}' }});
        add('object', {{ data: '{base}/object' }});
        add('video', {{ src: '{base}/video' }});
    }})()''')
    wanted = {'connect-src', 'img-src', 'script-src-elem', 'style-src-elem', 'frame-src', 'object-src', 'media-src'}
    check.wait(lambda: wanted <= set(browser.value('refused')), 'each request is refused')
    server.shutdown()
    same(Counting.count, 0, 'requests that went out')
    same(browser.value('typeof window.inline'), 'undefined', 'an inline script that was added')
    same(browser.value("getComputedStyle(document.body).opacity"), '1', 'an inline style that was added')
    ran = browser.value("(() => { try { return eval('1'); } catch { return 'refused'; } })()", allowUnsafeEvalBlockedByCSP=False)
    same(ran, 'refused', 'eval')


def brightness(colour):
    """The relative luminance of a colour."""
    parts = [part / 255 for part in colour]
    linear = [part / 12.92 if part <= 0.03928 else ((part + 0.055) / 1.055) ** 2.4 for part in parts]
    return 0.2126 * linear[0] + 0.7152 * linear[1] + 0.0722 * linear[2]


def ratio(one, other):
    """The contrast of two colours, as WCAG 2.1 defines it."""
    low, high = sorted([brightness(one), brightness(other)])
    return (high + 0.05) / (low + 0.05)


def is_readable(ink, fill):
    return ratio(ink, fill) >= LETTERS


def rgb(colour):
    """The parts of a colour as an SVG names it."""
    if colour.startswith('#'):
        return tuple(int(colour[place:place + 2], 16) for place in (1, 3, 5))
    hue, saturation, lightness = [float(number) for number in re.findall('[0-9.]+', colour)]
    return tuple(255 * part for part in colorsys.hls_to_rgb(hue / 360, lightness / 100, saturation / 100))


def saved_texts_are_readable(check, what):
    """Each text in the saved SVG can be read on the box before it."""
    elements = list(xml.etree.ElementTree.fromstring(saved(check, 'svg')).iter())
    pairs = [(text.get('fill'), box.get('fill')) for box, text in zip(elements, elements[1:]) if text.tag.endswith('text')]
    assert len(pairs) >= 6, f'{what}: {len(pairs)} texts'
    for ink, fill in pairs:
        assert is_readable(rgb(ink), rgb(fill)), f'{what}: {ink} on {fill} is hard to read'


def colours(check):
    browser = check.browser
    many = ''.join(f'function{number} 1\n' for number in range(400))
    most = check.write('most.folded', ''.join(f'function{number} {number % 7}\n' for number in range(400)))
    graph, parse = check.write('many.folded', many), 'parse.folded'
    for scheme in ('light', 'dark'):
        browser.prefer(scheme)
        for words in (('graph', graph), ('compare', graph, most)):
            check.show(*words)
            picture = Picture(browser)
            # Each box of the row is as narrow as a pixel or two: the row has the fills of many names.
            fills = set(picture.pixels(1, down=9)) - {(251, 251, 249), (27, 29, 32)}
            assert len(fills) > (40 if words[0] == 'graph' else 3), f'{len(fills)} colours in {scheme}'
            ink = (31, 34, 38) if scheme == 'light' else (238, 240, 242)
            for fill in fills:
                assert is_readable(ink, fill), f'{ink} on {fill} is hard to read'
        check.show('graph', parse)
        named = [picture.runs(depth)[-1][2] for depth in (1, 2, 3)]
        assert len(set(named)) == 3, f'names have colours of their own: {named}'
        check.show('graph', 'faster.folded')
        same([picture.runs(depth)[-1][2] for depth in (1, 2, 3)], named, 'a name has the same colour on each page')
        check.screenshot(scheme)
        search(browser, 'a')
        saved_texts_are_readable(check, f'a search in {scheme}')
        check.show('compare', parse, 'faster.folded')
        saved_texts_are_readable(check, f'a comparison in {scheme}')
    browser.prefer('light')


TESTS = [hostile, offline, colours]
