"""Reads and writes images of stores in Python, from the description of their form and not from the code of `tsdb`.

Numbers are big-endian, signed ones in two's complement; a text is its length in eight bytes and its UTF-8 bytes."""
import struct


class Reader:
    def __init__(self, data):
        self.data, self.at = data, 0

    def number(self, form):
        (value,) = struct.unpack_from('>' + form, self.data, self.at)
        self.at += struct.calcsize('>' + form)
        return value

    def long(self):
        high, low = self.number('q'), self.number('Q')
        return high << 64 | low

    def text(self):
        size = self.number('Q')
        self.at += size
        return self.data[self.at - size : self.at].decode()

    def list_of(self, count, read):
        return [read() for _ in range(count)]


def read(data):
    """Returns the parts of an image of version 1 or 2."""
    r = Reader(data)
    assert data[:4] == b'TSIM'
    r.at = 4
    version = r.number('B')
    flag = (lambda: r.number('B')) if version == 2 else (lambda: 0)

    def rule():
        return [r.text(), r.text(), r.number('q'), r.number('q'), r.number('q'), r.list_of(r.number('B'), r.text)]

    def column():
        return [r.text(), flag(), r.list_of(r.number('Q'), lambda: (r.number('q'), r.number('q')))]

    def series():
        return [r.text(), r.list_of(r.number('B'), lambda: (r.text(), r.text())), r.list_of(r.number('Q'), column)]

    raw = r.number('q')
    rules = r.list_of(r.number('B'), rule)
    mark, lows, runs = r.number('q'), [r.number('q') for _ in rules], flag()
    accepted = r.number('Q')
    all_series = r.list_of(r.number('I'), series)
    cells = []
    for a_rule in rules:

        def cell():
            key = [r.number('q'), r.text(), [r.text() for _ in a_rule[5]]]
            return key + [r.number('Q'), r.long()] + [r.number('q') for _ in range(6)]

        cells.append(r.list_of(r.number('Q'), cell))
    assert r.at == len(data)
    return {
        'raw': raw,
        'rules': rules,
        'mark': mark,
        'lows': lows,
        'runs': runs,
        'accepted': accepted,
        'series': all_series,
        'cells': cells,
    }


def number(form, value):
    return struct.pack('>' + form, value)


def text(value):
    return number('Q', len(value.encode())) + value.encode()


def counted(form, items, write_one):
    return number(form, len(items)) + b''.join(map(write_one, items))


def write(parts, version):
    """Returns an image with these parts. Version 1 has no run, and no column that waits."""
    flag = (lambda value: number('B', value)) if version == 2 else (lambda _: b'')

    def rule(a):
        return text(a[0]) + text(a[1]) + struct.pack('>qqq', *a[2:5]) + counted('B', a[5], text)

    def column(c):
        return text(c[0]) + flag(c[1]) + counted('Q', c[2], lambda p: struct.pack('>qq', *p))

    def series(s):
        return text(s[0]) + counted('B', s[1], lambda t: text(t[0]) + text(t[1])) + counted('Q', s[2], column)

    def cell(c):
        key = number('q', c[0]) + text(c[1]) + b''.join(map(text, c[2]))
        return key + struct.pack('>QqQ', c[3], c[4] >> 64, c[4] & (1 << 64) - 1) + struct.pack('>6q', *c[5:])

    return (
        b'TSIM'
        + number('B', version)
        + number('q', parts['raw'])
        + counted('B', parts['rules'], rule)
        + struct.pack('>q', parts['mark'])
        + b''.join(number('q', low) for low in parts['lows'])
        + flag(parts['runs'])
        + number('Q', parts['accepted'])
        + counted('I', parts['series'], series)
        + b''.join(counted('Q', cells, cell) for cells in parts['cells'])
    )
