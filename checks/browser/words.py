"""Tests of what is said: search, the table of functions, units, notices, and links."""
import json
import pathlib
import re
import subprocess

import documents
import profiles
from documents import raw_data_in
from looking import Picture, contains, data_in, fragment, same, search, table
from told_boxes import boxes_of

NESTED = 'main;walk;walk;leaf 5\nmain;walk;other 3\nmain;leaf 2\n'


def data(check):
    page = (pathlib.Path(documents.TOP) / 'docs' / 'PAGE-DATA.md').read_text(encoding='utf-8')
    example = re.sub(r'\n *', '', page.partition('## An example')[2].partition('\n    {')[2])
    path = check.write('small.folded', 'main;read<int> 2\nmain 1\n')
    same('{' + example, raw_data_in(check.show('graph', path)).decode(), 'the example of docs/PAGE-DATA.md')
    check.write('odd.folded', '<&>\u2028\u2029"\\\x01\t\r;é😀 3\n;; 2\n')
    for words in (('graph', 'odd.folded', 'parse.folded'), ('graph', '--every', '2', 'parse.folded'),
                  ('graph', '--least', '5', 'parse.folded'), ('chart', 'faster.folded', 'parse.folded'),
                  ('compare', 'parse.folded', 'faster.folded')):
        document = check.show(*words)
        same(raw_data_in(document), documents.text_of(data_in(document)), f'the text of the data of {words}')
        wanted = documents.data_of(check.program, words)
        same(data_in(document), wanted, f'the data of {words}, and the lines of JSON')
        shown = check.browser.value("JSON.stringify(JSON.parse(document.getElementById('data').textContent))")
        same(json.loads(shown), wanted, f'the data of {words} in the browser')


def searching(check):
    browser = check.browser
    check.show('graph', check.write('nested.folded', NESTED))
    picture = Picture(browser)
    plain = picture.colour(1, 0.5)
    same(search(browser, 'walk'), '2 matched, 80%', 'nested matches count once')
    same(fragment(browser), '#find=walk', 'fragment')
    match, other = picture.colour(2, 0.5), picture.colour(1, 0.5)
    assert match not in (plain, other), f'what matches has a colour of its own, not {match}'
    assert other != plain, 'what does not match steps back'
    said = "document.getElementById('by').selectedOptions[0].text"
    same(browser.value(said), 'in names, any case', 'what is said of a search without capital letters')
    same(search(browser, 'Walk'), '0 matched, 0%', 'capital letters count')
    same(browser.value(said), 'in names, as written', 'what is said of one with a capital letter')
    same(search(browser, 'l'), '4 matched, 100%', 'a part of a name')
    same(search(browser, 'leaf', 'name'), '2 matched, 70%', 'whole names')
    same(search(browser, 'eaf', 'name'), '0 matched, 0%', 'a part is no whole name')
    same(search(browser, '^(leaf|other)$', 'regexp'), '3 matched, 100%', 'a regular expression')
    same(fragment(browser), '#find=%5E(leaf%7Cother)%24&by=regexp', 'fragment of a regular expression')
    same(search(browser, '(', 'regexp'), 'not a regular expression', 'no regular expression')
    same(browser.value("document.getElementById('find').getAttribute('aria-invalid')"), 'true', 'the field is marked')
    same(search(browser, '(', 'text'), '0 matched, 0%', 'the same as text')
    same(search(browser, 'leaf'), '2 matched, 70%', 'text')
    browser.value("document.getElementById('find').focus()")
    found = []
    for modifiers in (0, 0, 0, 8, 8):
        browser.press('Enter', modifiers)
        found.append(picture.heard().split(' of the whole')[0])
    first, second = 'leaf · 2, 20%', 'leaf · 5, 50%'
    same(found, [first, second, first, second, first], 'next and previous go in a circle')
    browser.click_on('#next')
    same(picture.heard().split(' of the whole')[0], second, 'the button for the next')
    check.screenshot('search')


def functions(check):
    browser = check.browser
    check.show('graph', check.write('nested.folded', NESTED))
    main, walk = ['main', '0', '0%', '10', '100%'], ['walk', '0', '0%', '8', '80%']
    leaf, other = ['leaf', '7', '70%', '7', '70%'], ['other', '3', '30%', '3', '30%']
    same(table(browser)[:2], [leaf, other], 'by own weight')
    browser.click_on('th[data-key="total"] button')
    same(table(browser), [main, walk, leaf, other], 'by total weight, recursion counted once')
    same(browser.value("[...document.querySelectorAll('#functions th')].map((head) => head.getAttribute('aria-sort'))"),
         [None, None, 'descending'], 'aria-sort')
    browser.click_on('th[data-key="total"] button')
    same(table(browser), [other, leaf, walk, main], 'rising')
    browser.click_on('th[data-key="name"] button')
    same(table(browser), [leaf, main, other, walk], 'by name')
    same(search(browser, 'walk', 'name'), '2 matched, 80%', 'a search for a whole name')
    same(fragment(browser), '#find=walk&by=name', 'fragment')
    same([table(browser), browser.text('#functions-title')], [[leaf, main, other, walk], 'Functions'],
         'a name that is searched for as a whole')
    marked = "[...document.querySelectorAll('#functions tr[aria-current] button')].map((button) => button.textContent)"
    same(browser.value(marked), ['walk'], 'it is marked')
    check.show('graph', check.write('nameless.folded', 'main;;leaf 2\nmain 1\n'), fragment='#by=name')
    same(browser.value(marked), [], 'nothing is marked without a search')


def functions_of_a_part(check):
    """The table follows what is zoomed, and what is searched for."""
    browser = check.browser
    check.show('graph', check.write('nested.folded', NESTED))
    Picture(browser).click(2, 0.9)
    same([fragment(browser), browser.text('#functions-title')], ['#zoom=main/walk', 'Functions in this box'], 'what is zoomed')
    leaf, other, walk = ['leaf', '5', '62.5%', '5', '62.5%'], ['other', '3', '37.5%', '3', '37.5%'], ['walk', '0', '0%', '8', '100%']
    same(table(browser), [leaf, other, walk], 'functions in what is zoomed, without its callers')
    search(browser, 'l')
    same([table(browser), browser.text('#functions-title')], [[leaf, walk], 'Functions in this box that match'], 'those that match')
    search(browser, '(', 'regexp')
    same(table(browser), [leaf, other, walk], 'where nothing can match')
    browser.click_on('#back')
    browser.wait_for("document.getElementById('functions-title').textContent === 'Functions'")
    same(table(browser)[0], ['leaf', '7', '70%', '7', '70%'], 'the whole again')


def columns(check):
    """In whatever room the table has, names have half of it, and numbers are whole."""
    browser = check.browser
    kinds = [('cpu', 'nanoseconds')]
    stacks = [(['main', f'{"a_very_long_name_" * 9}{number}'], [9_876_543_210 + number]) for number in range(9)]
    before = check.write('hours.pb', profiles.profile(kinds, stacks))
    after = check.write('others.pb', profiles.profile(kinds, [(['main'], [123_456_789_012]), (['main', 'other'], [10 ** 11])]))
    for width in (390, 700, 1100, 1600, 2560):
        browser.resize(width, 800)
        for words, shown in ((['graph', before], ''), (['compare', before, after], ''), (['compare', before, after], '#share=1')):
            if shown and width < 700:
                continue
            check.show(*words, fragment=shown)
            cells = browser.value("""[...document.querySelectorAll('#functions tbody tr:first-child td')]
                .filter((cell) => cell.getClientRects().length > 0).map((cell) => [cell.clientWidth, cell.scrollWidth - cell.clientWidth])""")
            room = browser.area('#functions')[2]
            assert cells[0][0] >= 0.5 * room - 1, f'{words[0]}{shown} in {width}: names have {cells[0][0]} of {room}'
            assert len(cells) in ((3, 5, 7) if words[0] == 'compare' else (5,)) and all(more <= 0 for _, more in cells[1:]), (
                f'{words[0]}{shown} in {width}: {cells}')
            same(browser.value("(({ scrollWidth, clientWidth }) => scrollWidth - clientWidth)(document.getElementById('lists'))"), 0,
                 f'what is out of sight of the lists of {words[0]}{shown} in {width}')


def standing_still(check):
    """Whatever the search says, the tools beside it stay where they are; the field is as wide as there is room."""
    browser = check.browser
    many = check.write('many.folded', ''.join(f'main;function{number} 1\n' for number in range(2000)))
    fields = []
    for width in (1000, 1100, 1200, 1600):
        browser.resize(width, 700)
        check.show('graph', '--least', '0', '--focus', 'function', many)
        places = []
        for text in ('', 'function', 'nothing', '('):
            search(browser, text, 'regexp')
            places.append([browser.area(selector)[:2] for selector in ('#back', '#below', '#save-svg', '#help', '#picture')])
        same(places, [places[0]] * len(places), f'where the tools stand in {width}')
        search(browser, '')
        fields.append(browser.area('#find')[2])
    assert len(set(fields)) > 1 and min(fields) > 70, f'the field is {fields} wide'


def units(check):
    browser = check.browser
    stack = ['main', 'work']
    time = check.write('time.pb', profiles.profile([('samples', 'count'), ('cpu', 'nanoseconds')],
                                                   [(stack, [3, 1_234_567_890]), (['main'], [1, 2_500_000])]))
    space = check.write('space.pb', profiles.profile([('inuse_space', 'bytes')], [(stack, [5 * 2 ** 20]), (['main'], [1536])]))
    check.show('graph', time)
    contains(browser.text('#summary'), ': 1.24 s of cpu, ', 'nanoseconds')
    same(Picture(browser).told(1, 0.5)[2], 'own 2.5 ms', 'a shorter time')
    check.show('graph', '--type', 'samples', time)
    contains(browser.text('#summary'), ': 4 of samples, ', 'counts')
    check.show('graph', space)
    contains(browser.text('#summary'), ': 5 MiB of inuse_space, ', 'bytes')
    same(Picture(browser).told(1, 0.5)[2], 'own 1.5 KiB', 'fewer bytes')
    check.show('graph', check.write('numbers.folded', 'main 1234567\n'))
    contains(browser.text('#summary'), ': 1,234,567, ', 'plain numbers')
    check.show('graph', '--least', '0', time, space, 'parse.folded')
    same(browser.text('#notices'), f'The sources have different units, so their sum means little: {time} in nanoseconds, {space} in bytes,'
         ' parse.folded in plain numbers.', 'different units')
    contains(browser.text('#summary'), ': 1,242,312,363, ', 'their sum')
    same(browser.value("[...document.querySelectorAll('#sources li')].map((item) => item.textContent)"),
         ['time.pb: 1.24 s of cpu', 'space.pb: 5 MiB of inuse_space', 'parse.folded: 57'],
         'sources')


def more_units(check):
    browser = check.browser
    hours = check.write('hours.pb', profiles.profile([('cpu', 'nanoseconds')],
                                                     [(['main', 'work'], [9_876_543_210_987]), (['main'], [1_500])]))
    empty = check.write('empty.pb', profiles.profile([('cpu', 'nanoseconds')], []))
    check.show('graph', '--least', '0', hours, empty)
    contains(browser.text('#summary'), ': 9,877 s of cpu, ', 'many seconds')
    same(browser.text('#notices'), '', 'a source without samples has no other unit')
    same(Picture(browser).told(1, 0.5)[2], 'own 1.5 µs', 'microseconds')
    check.show('compare', '--least', '0', hours, 'parse.folded')
    same(browser.text('#notices'), f'The sources have different units, so comparing them means little: {hours} in nanoseconds, '
         'parse.folded in plain numbers.', 'different units of two profiles')
    contains(browser.text('#summary'), 'before 9,876,543,212,487, after 57, ', 'their weights')
    check.show('compare', check.write('seven.folded', 'a 7\n'), check.write('hundred.folded', 'a 93\n'))
    same(Picture(browser).told(1, 0.5)[3], 'before 7: +1,229%', 'a large change')


def notices(check):
    browser = check.browser
    most = 2 ** 56 - 1
    document = check.show('graph', '--least', '0', check.write('most.folded', f'main;huge {most - 3}\nmain;tiny 3\n'))
    contains(browser.text('#notices'), 'JavaScript has no more digits', 'rounding')
    contains(browser.text('#summary'), 'about 72,057,594,037,927,9', 'a rounded sum')
    same([box.weight for box in boxes_of(data_in(document)['drawings'][0])], [most, most, most - 3, 3], 'the data is exact')
    check.show('graph', '--least', '5', 'parse.folded')
    same(browser.text('#notices'), 'Left out: 1 box of together 4, each lighter than 5. Neither the search nor the lists count them.',
         'what is left out')
    same(Picture(browser).name(3, 5 / 57), None, 'where measure was')
    check.show('compare', '--least', '12', 'parse.folded', 'faster.folded')
    told = browser.value("[...document.querySelectorAll('#notices li')].map((item) => item.textContent.split(', each')[0])")
    same(told, ['Left out of the profile before: 2 boxes of together 7', 'Left out of the profile after: 2 boxes of together 7'],
         'what is left out of both')
    check.show('graph', check.write('empty.folded', ''))
    contains(browser.text('#notices'), 'nothing to draw', 'no samples')
    same(browser.happened('Runtime.exceptionThrown'), [], 'faults without samples')
    check.show('graph', '--title', 'A run on Monday', 'parse.folded')
    same([browser.text('#title'), browser.value('document.title')], ['A run on Monday'] * 2, 'title')


def whole(check):
    browser = check.browser
    check.show('graph', '--focus', 'parse', 'parse.folded')
    same(browser.text('#notices'), 'A filter keeps 87.7% of the whole: 50 of 57.', 'what --focus keeps')
    check.show('compare', '--hide', 'layout', 'parse.folded', 'faster.folded')
    same(browser.text('#notices'), 'A filter keeps 85.3% of the whole of both profiles: 81 of 95.', 'what --hide keeps')
    data = documents.data_of(check.program, ['graph', 'parse.folded'])
    browser.open(check.place(documents.joined(data)))
    same(browser.text('#notices'), '', 'without a filter')
    browser.open(check.place(documents.joined(data | {'whole': 76})))
    picture = Picture(browser)
    same(browser.text('#notices'), 'A filter keeps 75% of the whole: 57 of 76.', 'what a filter keeps')
    same(picture.told(2, 0.5)[1], '50, 87.7% of what is kept, 65.8% of the whole', 'tip')
    picture.click(2, 0.5)
    contains(picture.heard(), 'parse · 50, 87.7% of what is kept, 65.8% of the whole, 100% of what is zoomed', 'the focused box')
    same(search(browser, 'read'), '1 matched, 33.3% of what is kept', 'search')
    browser.open(check.place(documents.joined(data | {'whole': 58_000_000})))
    contains(browser.text('#notices'), 'A filter keeps 0.000098% of the whole', 'hardly anything is kept')
    large = data | {'whole': 10 ** 15 + 1, 'sources': [data['sources'][0] | {'weight': 10 ** 15}]}
    browser.open(check.place(documents.joined(large)))
    contains(browser.text('#notices'), 'A filter keeps more than 99.9% of the whole', 'hardly anything is left out')
    data = documents.data_of(check.program, ['compare', 'parse.folded', 'faster.folded'])
    browser.open(check.place(documents.joined(data | {'whole': 190})))
    contains(browser.text('#notices'), 'A filter keeps 50% of the whole of both profiles: 95 of 190.', 'a comparison')
    same(Picture(browser).told(1, 0.5)[1], '38, 100% of what is kept', 'tip of a comparison')


def links(check):
    browser = check.browser
    document = check.show('graph', 'parse.folded', fragment='#zoom=main/parse&find=read&root=below')
    picture = Picture(browser)
    same(browser.text('#matched'), '1 matched, 33.3%', 'search of a link')
    same(browser.value("document.getElementById('find').value"), 'read', 'the field of a link')
    same([picture.name(depth, 0.1, rows=4) for depth in range(4)], ['all', 'main', 'parse', 'read'], 'zoom of a link')
    check.show('chart', 'parse.folded', fragment='#zoom=main/parse/read&start=46')
    contains(Picture(browser).told(3, 0.5)[3], 'from 46 to 53', 'a box of a chart by its start')
    for odd in ('#zoom=%', '#zoom=main/nothing/there', '#box=99999', '#source=7', '#drawing=-1', '#find=%E0%A4%A', '#start=x&zoom=',
                '#&&=&a'):
        browser.open(check.place(document), odd)
        same(browser.happened('Runtime.exceptionThrown'), [], f'faults of {odd}')
        same(Picture(browser).name(0, 0.5), 'all', f'the root with {odd}')
    for dead in ('#zoom=main/nothing', '#zoom=nothing&find=read', '#box=99999'):
        browser.open(check.place(document), dead)
        same([browser.text('#status'), fragment(browser)],
             ['No box here has the path of this address, so all of them are shown.', '#find=read' if 'read' in dead else ''], dead)
    long = 'a' * 5000
    check.show('graph', check.write('long.folded', f'{long};b 1\nc 1\n'))
    picture = Picture(browser)
    picture.click(2, 0.2)
    same(fragment(browser), '#box=2', 'a very long path')
    same(picture.name(2, 0.9), 'b', 'what is zoomed')


def failing_outputs(check):
    """A page whose output fails on the way ends with status 3."""
    for words in (['graph', 'parse.folded'], ['chart', 'parse.folded'], ['compare', 'parse.folded', 'faster.folded']):
        with open('/dev/full', 'wb') as full:
            answer = subprocess.run([check.program, words[0], '--page', *words[1:]], stdout=full, stderr=subprocess.PIPE, check=False)
        same([answer.returncode, answer.stderr], [3, b'flamecollect: output failed\n'], f'{words[0]} to a full device')


TESTS = [data, searching, functions, functions_of_a_part, columns, standing_still, units, more_units, notices, whole, links,
         failing_outputs]
