"""Tests of a page of which more is to come: it loads itself again, until one of which no more is to come has taken its place."""
from __future__ import annotations

import os
import pathlib
from typing import Any

import chromium
import documents
from looking import same
from told_boxes import Box, columns_of

LOOK = '#zoom=main/parse&find=main'
NOTICE = 'More samples are to come: this page loads itself again.'
SEEN = "[...['title', 'summary', 'notices', 'matched'].map((id) => document.getElementById(id)?.textContent), location.hash]"
# A page that loads itself again after two seconds never gets so old, in milliseconds.
OLD = 4000
HIDDEN = "window.isSeen = false; Object.defineProperty(Document.prototype, 'hidden', { get: () => !window.isSeen })"
SHOW = "window.isSeen = true; document.dispatchEvent(new Event('visibilitychange')); 0"


def page_of(names: list[str], boxes: list[Box], has_more: bool) -> bytes:
    """A page as `live` writes it, of boxes that each have a name of their own."""
    total = boxes[0].weight
    drawing = columns_of(boxes) | {'least': 0, 'left_out': {'boxes': 0, 'weight': 0}, 'name': list(range(len(names))), 'total': total}
    data = {'drawings': [drawing], 'names': names, 'sources': [], 'title': 'flamecollect live', 'view': 'graph', 'whole': total}
    return bytes(documents.joined(data | ({'more': True} if has_more else {})))


def document(weight: int, has_more: bool) -> bytes:
    """The page of `main` with a weight of 1, and `main;parse` with this one."""
    return page_of(['all', 'main', 'parse'], [Box(0, 0, weight + 1, 0), Box(1, 0, weight + 1, 1), Box(2, 1, weight, weight)], has_more)


def replace(path: pathlib.Path, page: bytes) -> None:
    """Another page takes the place of one, at once."""
    other = path.with_suffix('.next')
    other.write_bytes(page)
    os.replace(other, path)


def wait_for(check: Any, expression: str, wanted: object) -> None:
    """Waits for a value. While a page loads it has none."""
    def holds() -> bool:
        try:
            return bool(check.browser.value(expression) == wanted)
        except chromium.Fault:
            return False
    check.wait(holds, f'{expression} is never {wanted}')


def wait_for_page(check: Any, weight: int, has_more: bool) -> None:
    """Waits until a page is seen with what was looked at: its zoom and its search."""
    wait_for(check, SEEN, ['flamecollect live', f'Flame graph: {weight + 1}, 3 boxes', NOTICE if has_more else '', '1 matched, 100%', LOOK])


def growing(check: Any) -> None:
    browser = check.browser
    path = check.place(document(2, True))
    browser.go(path, LOOK)
    wait_for_page(check, 2, True)
    replace(path, document(5, True))
    wait_for_page(check, 5, True)
    replace(path, document(9, False))
    wait_for_page(check, 9, False)
    same(browser.value("performance.getEntriesByType('navigation')[0].type"), 'reload', 'how the last page came')
    replace(path, document(11, True))
    browser.wait_for(f'performance.now() > {OLD}')
    wait_for_page(check, 9, False)
    same(browser.happened('Runtime.exceptionThrown') + browser.happened('Log.entryAdded'), [], 'faults')
    check.screenshot('growing')


def growing_unseen(check: Any) -> None:
    """A page that nobody sees stays, and loads itself again once it is seen."""
    browser = check.browser
    path = check.place(document(2, True))
    added = browser.send('Page.addScriptToEvaluateOnNewDocument', source=HIDDEN)['identifier']
    try:
        browser.open(path, LOOK)
        replace(path, document(5, False))
        browser.wait_for(f'performance.now() > {OLD}')
        wait_for_page(check, 2, True)
        browser.value(SHOW)
        wait_for_page(check, 5, False)
    finally:
        browser.send('Page.removeScriptToEvaluateOnNewDocument', identifier=added)


def growing_in_use(check: Any) -> None:
    """A page stays while a reader does something with it."""
    browser = check.browser
    path = check.place(document(2, True))
    browser.open(path, LOOK)
    replace(path, document(5, False))
    browser.value("window.use = setInterval(() => document.dispatchEvent(new Event('pointermove')), 100); 0")
    browser.wait_for(f'performance.now() > {OLD}')
    wait_for_page(check, 2, True)
    browser.value('clearInterval(window.use)')
    wait_for_page(check, 5, False)


def growing_long_names(check: Any) -> None:
    """A box whose path is long is named by it, and not by its number, which others get."""
    browser = check.browser
    long = 'n' * 5000
    path = check.place(page_of(['all', 'main', long], [Box(0, 0, 2, 0), Box(1, 0, 2, 0), Box(2, 0, 2, 2)], True))
    browser.go(path, f'#zoom=main/{long}')
    replace(path, page_of(['all', 'before', 'main', long], [Box(0, 0, 3, 0), Box(1, 0, 1, 1), Box(1, 1, 2, 0), Box(2, 1, 2, 2)], True))
    look = "[document.getElementById('summary')?.textContent, location.hash]"
    wait_for(check, look, ['Flame graph: 3, 4 boxes', f'#zoom=main/{long}'])
    browser.go(path, f'#callers={long}')
    replace(path, page_of(['all', 'main', 'other', long], [Box(0, 0, 4, 0), Box(1, 0, 4, 0), Box(2, 0, 1, 1), Box(2, 1, 3, 3)], True))
    wait_for(check, look, ['Flame graph: 4, 4 boxes', f'#callers={long}'])


TESTS = [growing, growing_unseen, growing_in_use, growing_long_names]
