"""pprof profiles, as little of them as the checks need: writing some, and reading the chosen type and its unit."""


def varint(number):
    data = bytearray()
    while number > 127:
        data.append(number & 127 | 128)
        number >>= 7
    data.append(number)
    return bytes(data)


def scalar(number, value):
    return varint(number << 3) + varint(value)


def block(number, data):
    return varint(number << 3 | 2) + varint(len(data)) + data


def profile(kinds, samples, default=''):
    """The bytes of a profile. `kinds` are pairs of a type and its unit, `samples` pairs of a stack (names, root first) and its values."""
    strings = {'': 0}
    functions = {}

    def string(text):
        return strings.setdefault(text, len(strings))

    body = b''
    for kind, unit in kinds:
        body += block(1, scalar(1, string(kind)) + scalar(2, string(unit)))
    for stack, values in samples:
        places = [functions.setdefault(name, len(functions) + 1) for name in reversed(stack)]
        body += block(2, block(1, b''.join(map(varint, places))) + block(2, b''.join(map(varint, values))))
    for name, place in functions.items():
        body += block(4, scalar(1, place) + block(4, scalar(1, place)))
        body += block(5, scalar(1, place) + scalar(2, string(name)))
    body += scalar(14, string(default))
    for text in strings:
        body += block(6, text.encode('utf-8'))
    return body


def fields(data):
    """Each field's number and value: a number, or bytes."""
    place = 0

    def number():
        nonlocal place
        value = shift = 0
        while True:
            byte = data[place]
            place += 1
            value |= (byte & 127) << shift
            shift += 7
            if byte < 128:
                return value

    while place < len(data):
        tag = number()
        if tag & 7 == 0:
            yield tag >> 3, number()
        else:
            length = {1: 8, 5: 4}.get(tag & 7) or number()
            yield tag >> 3, data[place:place + length]
            place += length


def kind_of(path, asked):
    """The chosen type of a profile and its unit."""
    with open(path, 'rb') as file:
        parts = list(fields(file.read()))
    strings = [value.decode('utf-8', 'replace') for number, value in parts if number == 6]
    kinds = []
    for number, value in parts:
        if number == 1:
            said = dict(fields(value))
            kinds.append((strings[said.get(1, 0)], strings[said.get(2, 0)]))
    default = next((strings[value] for number, value in parts if number == 14), '')
    chosen = [kind for kind in kinds if kind[0] == (asked or default or None)]
    return (chosen or kinds[-1:] or [('', '')])[0]
