"""Pages of the built program, and what their data has to be: `data_of` makes the data of docs/PAGE-DATA.md of the lines of JSON that the
program writes without `--page`.
"""
import functools
import json
import pathlib
import re
import subprocess

import profiles
from told_boxes import Box, columns_of

TOP = pathlib.Path(__file__).resolve().parents[2]


# With `checks/page --edited` the head and the tail of each page are those that page/join makes now, whatever the program has.
edited = False


def page(program, words):
    """The bytes of the document that the program writes."""
    document = output_of(program, words)
    return with_data(raw_data_in(document)) if edited else document


def raw_data_in(document):
    """The bytes of a document's data, found without the page's own script."""
    found = re.fullmatch(rb'.*<script type="application/json" id="data">([^<]*)</script>.*', document, re.DOTALL)
    assert found, 'the document has no data, or a "<" in it'
    return found[1]


def split_words(words):
    """The command, the options with their values, and the files."""
    options, files = {}, []
    rest = iter(words[1:])
    for word in rest:
        if word == '--page':
            continue
        if word.startswith('--'):
            options[word] = next(rest)
        else:
            files.append(word)
    return words[0], options, files


def output_of(program, words):
    answer = subprocess.run([program, *words], stdin=subprocess.DEVNULL, capture_output=True, check=False)
    if answer.returncode != 0:
        raise RuntimeError(f'{words}: status {answer.returncode}: {answer.stderr.decode()}')
    return answer.stdout


def lines_of(program, words):
    return [json.loads(line) for line in output_of(program, words).splitlines()]


def source(program, path, options):
    asked = options.get('--type')
    kind, unit = profiles.kind_of(path, asked) if path.endswith(('.pb', '.pprof', '.prof')) else ('', '')
    typed = ['--type', asked] if asked else []
    [line] = lines_of(program, ['graph', *typed, path])
    return {'name': path, 'type': kind, 'unit': unit, 'weight': line['total']}


def drawing(line, least, places):
    """A drawing of a line of JSON. `places` has the place of each name so far, and gets those of new names."""
    kept = [box for box in line['boxes'] if box['weight'] >= least]
    out = [box for box in line['boxes'] if box['weight'] < least]
    made = columns_of(Box(*(box[key] for key in Box._fields)) for box in kept)
    made['name'] = [places.setdefault(box['name'], len(places)) for box in kept]
    made |= {'least': least, 'left_out': {'boxes': len(out), 'weight': sum(box['own'] for box in out)}, 'total': line['total']}
    if line['view'] == 'compare':
        made['other'] = [box['before'] for box in kept]
    if line['view'] == 'snapshot':
        made |= {'at': line['at'], 'counts': line['counts']}
    return made


def data_of(program, words):
    """The data, as Python's values."""
    command, options, files = split_words(words)
    kept = [word for name in ('--type', '--every') if name in options for word in (name, options[name])]
    if command == 'compare':
        lines = [line for pair in (files[::-1], files) for line in lines_of(program, ['compare', '--boxes', *kept, *pair])]
    else:
        lines = lines_of(program, [command, *kept, *files])
    places = {}
    drawings = [drawing(line, int(options.get('--least', 0)), places) for line in lines]
    sources = [source(program, path, options) for path in files]
    return {
        'drawings': drawings,
        'names': list(places),
        'sources': sources,
        'title': options.get('--title', ', '.join(files)),
        'view': command,
        'whole': sum(each['weight'] for each in sources),
    }


def text_of(data):
    text = json.dumps(data, ensure_ascii=False, separators=(',', ':'), sort_keys=True)
    for character in '<>&\u2028\u2029':
        text = text.replace(character, f'\\u{ord(character):04x}')
    return text.encode('utf-8')


def joined(data):
    """The document with these data."""
    return with_data(text_of(data))


def with_data(text):
    head, tail = join()
    return head + text + tail


@functools.cache
def join():
    """The head and the tail of the files in page/."""
    files = subprocess.run([TOP / 'page' / 'join', '--split'], capture_output=True, check=True).stdout
    return files.split(b'\0')
