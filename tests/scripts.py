#!/usr/bin/env -S python3 -B
"""Cuts scripts and requests, with their answers, out of the files of tests/ and the pages; README.md says how these are
written.
    tests/scripts.py ROOM FILE..
A script at line L of FILE gives ROOM/FILE:L.tsdb, which tsdb reads, and ROOM/FILE:L.out, which it should print; `:`
stands for `/` in FILE.
Requests at line L give ROOM/FILE:L.1.request, ROOM/FILE:L.2.request .. and ROOM/FILE:L.out with the replies. An empty
ROOM/FILE:L.http marks
them; ROOM/FILE:L.tsdb has the settings and the moment of the server, if any, and ROOM/FILE:L.N.at the moment from
request N on."""
import os
import re
import sys

SIGNS = {'␠': b' ', '␉': b'\t', '␍': b'\r', '�': b'\xff'}
COMMANDS = {b'Lines': b'write', b'Queries': b'query', b'Settings': b'settings'}


def numbered(times, text):
    """Returns a text that many times, each time with its number in place of `#`."""
    if b'#' not in text:
        return times * text
    return b''.join(text.replace(b'#', b'%d' % number) for number in range(times))


def closing(text):
    """Returns the offset of the brace that closes the one at the start of a text."""
    depth = 0
    for brace in re.finditer(rb'[{}]', text):
        depth += 1 if brace[0] == b'{' else -1
        if depth == 0:
            return brace.start()
    return len(text) - 1


def written_out(text):
    """Returns a text with each {N of TEXT} written out."""
    out = b''
    while start := re.search(rb'\{(\d+) of ', text):
        end = start.start() + closing(text[start.start() :])
        out += text[: start.start()] + numbered(int(start[1]), text[start.end() : end])
        text = text[end + 1 :]
    return out + text


def line_of(line, end):
    """Returns a line with its end, or the lines that it stands for."""
    for sign, byte in SIGNS.items():
        line = line.replace(sign.encode(), byte)
    if many := re.match(rb'(\d+) lines of ', line):
        return numbered(int(many[1]), line[many.end() :] + end)
    unended = line.removesuffix('␄'.encode())
    return written_out(line + end if unended == line else unended)


class Part:
    """The lines of a request or a reply: those of a head end in CR LF; LF separates those of a body."""

    def __init__(self):
        self.text, self.in_body, self.is_separated = [], False, False

    def add(self, line):
        if not self.in_body:
            self.text.append(line_of(line, b'\r\n'))
            self.in_body = line == b''
            return
        if self.is_separated:
            self.text.append(b'\n')
        # each of `N lines of TEXT` has an end in a body, too
        self.is_separated = not re.match(rb'\d+ lines of ', line)
        self.text.append(line_of(line, b'' if self.is_separated else b'\n'))


class Script:
    """A script or a list of requests, whose files have a base in common."""

    def __init__(self, base):
        self.base, self.commands, self.answers = base, [], []
        self.requests, self.replies, self.moments = [], [], {}

    def command(self, line):
        """Adds a line of the script; after a request it is `at MOMENT`."""
        if self.requests:
            self.moments[len(self.requests) + 1] = line + b'\n'
        else:
            self.commands.append(line_of(line, b'\n'))

    def request(self, line):
        if len(self.replies) == len(self.requests) or len(self.requests) + 1 in self.moments:
            self.requests.append(Part())
        self.requests[-1].add(line)

    def reply(self, line):
        if len(self.replies) < len(self.requests):
            self.replies += [Part() for _ in range(len(self.requests) - len(self.replies))]
        self.replies[-1].add(line)

    def put(self):
        """Writes the files."""
        files = {'.tsdb': self.commands, '.out': list(self.answers)}
        for number, request in enumerate(self.requests, 1):
            files[f'.{number}.request'] = request.text
            files['.out'] += self.replies[number - 1].text if number <= len(self.replies) else []
            files['.out'].append(b'\n<< %d\n' % number)
            files['.http'] = []
        files |= {f'.{number}.at': [line] for number, line in self.moments.items()}
        for end, parts in files.items():
            with open(self.base + end, 'wb') as file:
                file.writelines(parts)


class Cutter:
    """Reads a file line by line, and has the script that is open."""

    def __init__(self, room, name):
        self.name, self.base = name, os.path.join(room, name.replace('/', ':'))
        self.is_page, self.part, self.last, self.open = name.endswith('.md'), b'', None, None
        self.is_inside, self.goes_on = not self.is_page, False

    def begin(self, number):
        """Begins a script at a line, in a page after the script of the block before if the block goes on."""
        if self.open is None:
            self.open = Script(f'{self.base}:{number}')
            if self.goes_on and self.last is not None:
                self.open.commands, self.open.answers = list(self.last.commands), list(self.last.answers)
        return self.open

    def end(self):
        if self.open is not None:
            self.open.put()
            self.last, self.open = self.open, None

    def cut_row(self, line, number):
        """Puts a row of a page's table: the line, query or settings at fault, and the fault."""
        cells = line.split(b'`')
        fault = cells[-2]
        script = self.begin(number)
        script.commands.append(COMMANDS[self.part] + b' ' + cells[-4] + b'\n')
        script.answers.append(b'{"error":"%s"}\n' % fault if self.part == b'Queries' else fault + b'\n')
        self.end()

    def add(self, line, number):
        if self.is_page and line.startswith(b'## '):
            self.part = line.split()[1]
        if self.is_page and line.startswith(b'```'):
            self.end()
            self.is_inside, self.goes_on = line.startswith(b'```tsdb'), line.endswith(b' goes on')
        elif not self.is_inside:
            if self.part in COMMANDS and re.match(rb'\| \d+ \|.*\| `[^`]*` \| `fault [^`]*` \|$', line):
                self.cut_row(line, number)
        elif re.match(rb'>>( |$)', line):
            self.begin(number).request(line[3:])
        elif re.match(rb'<<( |$)', line):
            self.begin(number).reply(line[3:])
        elif re.match(rb'>( |$)', line):
            self.begin(number).command(line[2:])
        elif line == b'':
            self.end()
        elif not line.startswith(b'#'):
            if self.open is None:
                sys.exit(f'{self.name}:{number}: an answer without a script')
            self.open.answers.append(line_of(line, b'\n'))


def cut(room, names, folder=''):
    """Writes the files of the scripts and requests that files of a folder have."""
    for name in names:
        cutter = Cutter(room, name)
        with open(os.path.join(folder, name), 'rb') as file:
            for number, line in enumerate(file.read().removesuffix(b'\n').split(b'\n'), 1):
                cutter.add(line, number)
        cutter.end()


if __name__ == '__main__':
    cut(sys.argv[1], sys.argv[2:])
