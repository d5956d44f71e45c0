"""A page of 10^6 boxes: how long it takes to the first paint, to a zoom, to a search and to another order. These are figures, printed and
not asserted."""
import os
import pathlib
import random
import statistics
import time

from looking import contains, same

BOXES = 1_000_000
FIGURES = pathlib.Path(__file__).resolve().parents[2] / 'out' / 'page' / 'figures'
PRESS = "document.getElementById('picture').dispatchEvent(new KeyboardEvent('keydown', {{ key: '{}', bubbles: true, cancelable: true }}))"


def stacks(boxes):
    """Folded lines whose flame graph has about that many boxes: each stack leaves the one before somewhere, and goes on at random."""
    drawn = random.Random(1)
    names = [f'module{number % 97}::function_{number}' for number in range(5000)]
    stack, count, lines = [], 0, []
    while count < boxes:
        stack = stack[:max(0, len(stack) - 1 - int(drawn.expovariate(1 / 6)))]
        while len(stack) < 5 or (drawn.random() < 0.9 and len(stack) < 60):
            stack.append(drawn.choice(names))
            count += 1
        lines.append(f'{";".join(stack)} {drawn.randint(1, 10 ** 7)}\n')
    return ''.join(lines)


def took(browser, action):
    """How many milliseconds an action takes, to the frame that shows it."""
    return browser.value(f'''(async () => {{
        const frame = () => new Promise((done) => requestAnimationFrame(done));
        await frame();
        await frame();
        const begin = performance.now();
        {action};
        await frame();
        await new Promise((done) => {{
            const channel = new MessageChannel();
            channel.port1.onmessage = done;
            channel.port2.postMessage(0);
        }});
        return performance.now() - begin;
    }})()''')


def spread(times):
    return f'{statistics.median(times):.0f} ms ({min(times):.0f} to {max(times):.0f}, {len(times)} times)'


def large(check):
    browser = check.browser
    begin = time.monotonic()
    document = check.show('graph', '--least', '0', check.write('large.folded', stacks(BOXES)))
    path = check.place(document)
    made = time.monotonic() - begin
    paints = []
    for _ in range(3):
        browser.open(path)
        paints.append(browser.value("performance.getEntriesByName('painted')[0].startTime"))
    contains(browser.text('#summary'), 'boxes', 'summary')
    check.screenshot('large')
    time.sleep(1)
    # In to what is heaviest, step by step, and out again to the whole.
    ins, outs = [], []
    for _ in range(3):
        for _ in range(4):
            browser.value(PRESS.format('ArrowDown'))
            ins.append(took(browser, PRESS.format('Enter')))
        for _ in range(4):
            browser.value(PRESS.format('ArrowUp'))
        outs.append(took(browser, PRESS.format('Enter')))
    same(browser.value("document.getElementById('back').disabled"), True, 'at the whole again')
    find = took(browser, "document.getElementById('find').value = 'function_12'; document.getElementById('search').requestSubmit()")
    contains(browser.text('#matched'), ' matched, ', 'search')
    browser.value("document.getElementById('find').value = ''; document.getElementById('search').requestSubmit()")
    # To the heaviest function and what calls it, back, and the heaviest boxes first.
    browser.value(PRESS.format('ArrowDown'))
    called = took(browser, PRESS.format('c'))
    contains(browser.text('#drawing-name'), 'callers and callees of ', 'callers')
    browser.value('history.back()')
    browser.wait_for("document.getElementById('drawing-name').textContent === ''")
    heavy = took(browser, "document.getElementById('heavy').click()")
    lines = [
        f'{browser.text("#summary")}; {len(document):,} bytes, made in {made:.1f} s; {os.cpu_count()} cores, load {os.getloadavg()[0]:.1f}',
        f'to the first paint of the picture: {spread(paints)}',
        f'zoom in: {spread(ins)}; zoom out to the whole: {spread(outs)}',
        f'search: {find:.0f} ms; callers of the heaviest function: {called:.0f} ms; left heavy: {heavy:.0f} ms',
    ]
    FIGURES.write_text('\n'.join(lines) + '\n')
    print('\n'.join(lines))


TESTS = [large]
