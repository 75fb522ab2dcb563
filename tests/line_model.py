"""Reads a line of line protocol as docs/GUIDE.md#lines says, and not as the code does; tests/fuzz compares the two."""
import re
import sys

from model import GREATEST, LEAST

sys.set_int_max_str_digits(0)  # a timestamp has any number of digits
REFUSED_TYPES = re.compile(rb't|T|true|True|TRUE|f|F|false|False|FALSE|[0-9]+u|-?[0-9]+(\.[0-9]+)?([eE][+-]?[0-9]+)?')


class Fault(Exception):
    """The first fault of a line and its offset."""


def answer_to(line, unit):
    """Returns what `write` prints of a line, while no run of retention has begun and few series are registered."""
    try:
        return 'ok' if read(line, unit) else 'none'
    except Fault as fault:
        return 'fault %d at %d' % fault.args


def read(line, unit):
    """Returns whether a line has a point, and not a comment or nothing."""
    if len(line) > 65536:
        raise Fault(20, 65536)
    start, end = 0, len(line) - line.endswith(b'\r')
    while start < end and line[end - 1 : end] == b' ' and line[end - 2 : end - 1] != b'\\':
        end -= 1
    while start < end and line[start : start + 1] == b' ':
        start += 1
    if start == end or line[start : start + 1] == b'#':
        return False
    key_end = first(line, b' ', start, end)
    if key_end - start > 4096:
        raise Fault(20, start + 4096)
    read_key(line, start, key_end)
    at = behind_spaces(line, key_end, end)
    if at == end:
        raise Fault(14, key_end)
    at = behind_spaces(line, read_fields(line, at, end), end)
    if at < end:
        stamp = line[at:end]
        if not re.fullmatch(rb'-?[0-9]+', stamp):
            raise Fault(18, at)
        if not LEAST <= int(stamp) * unit <= GREATEST:
            raise Fault(19, at)
    return True


def first(line, signs, start, end):
    """Returns the offset of the first of some signs that no backslash escapes, the end if there is none."""
    for at in range(start, end):
        if line[at] in signs and (at == start or line[at - 1 : at] != b'\\'):
            return at
    return end


def behind_spaces(line, at, end):
    while at < end and line[at : at + 1] == b' ':
        at += 1
    return at


def name_of(text):
    """Returns a tag or field key without its escapes."""
    return re.sub(rb'\\([,= ])', rb'\1', text)


def read_key(line, start, end):
    at = first(line, b',', start, end)
    if at == start:
        raise Fault(11, start)
    keys = set()
    while at < end:
        at += 1
        tag_end = first(line, b',', at, end)
        middle = first(line, b'=', at, tag_end)
        if middle in (at, tag_end) or middle + 1 == tag_end or first(line, b'=', middle + 1, tag_end) < tag_end:
            raise Fault(12, at)
        key = name_of(line[at:middle])
        for number, is_so in (20, len(keys) == 64), (21, key == b'time'), (13, key in keys):
            if is_so:
                raise Fault(number, at)
        keys.add(key)
        at = tag_end


def read_fields(line, at, end):
    """Returns the offset behind the fields."""
    for number in range(end):
        middle = first(line, b'=, ', at, end)
        is_key = at < middle < end and line[middle : middle + 1] == b'='
        value_end = end_of_value(line, middle + 1, end) if is_key else None
        shape = shape_of(line[middle + 1 : value_end]) if value_end is not None else 15
        is_time = is_key and name_of(line[at:middle]) == b'time'
        for fault, is_so in (20, number == 256), (15, not is_key), (21, is_time), (shape, shape is not None):
            if is_so:
                raise Fault(fault, at)
        if line[value_end : value_end + 1] != b',' or value_end == end:
            return value_end
        at = value_end + 1
    return end


def end_of_value(line, start, end):
    """Returns the end of a value, None if it is an unfinished string or something follows its quote."""
    if line[start:end].startswith(b'"'):
        found = re.match(rb'"(\\["\\]|\\(?!["\\])|[^"\\])*"', line[start:end], re.S)
        value_end = start + found.end() if found else end
        return value_end if found and (value_end == end or line[value_end : value_end + 1] in b', ') else None
    return min((at for sign in b', ' if (at := line.find(sign, start, end)) >= 0), default=end)


def shape_of(value):
    """Returns the fault of a value, None if it is an integer of 64 bits."""
    if re.fullmatch(rb'-?[0-9]+i', value):
        return None if -(2**63) <= int(value[:-1]) < 2**63 else 17
    return 16 if value.startswith(b'"') or REFUSED_TYPES.fullmatch(value) else 15
