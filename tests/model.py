"""A plain model of `tsdb`, written from docs/DEFINITIONS.md and docs/GUIDE.md and not from the code; tests/soak
compares
the two. It keeps each fact ever accepted, and computes each answer from all of them. Retention only moves marks
here."""
import datetime
import itertools
import json
import re
from fractions import Fraction
from typing import NamedTuple

LEAST, GREATEST = -9223372036854775806, 9223372036854775806
UNITS = {
    'ns': 1,
    'n': 1,
    'u': 10**3,
    'µ': 10**3,
    'ms': 10**6,
    's': 10**9,
    'm': 60 * 10**9,
    'h': 3600 * 10**9,
}
MOST_BUCKETS, MOST_RULE_BUCKETS, CELLS_OF_A_STEP = 10_000, 1_000_000, 256


class Rule(NamedTuple):
    """A rollup rule; a duration of 0 is for ever."""

    name: str
    measurement: str
    interval: int
    offset: int
    keep: tuple
    duration: int


class Query(NamedTuple):
    """A statement; its start is None if there is no lower bound of time.

    Columns are pairs of function and name, conditions triples of tag, whether it must be equal, and value."""

    measurement: str
    field: str
    columns: tuple
    conditions: tuple
    start: int
    end: int
    interval: int
    offset: int
    tags: tuple
    fill: object


def bucket_of(t, interval, offset):
    return (t - offset) // interval


def in_bytes(text):
    return text.encode()


def tags_in_order(tags):
    return tuple(sorted(tags, key=lambda tag: (in_bytes(tag[0]), in_bytes(tag[1]))))


def order_of_column(column):
    measurement, tags, field = column
    return in_bytes(measurement), [(in_bytes(key), in_bytes(value)) for key, value in tags], in_bytes(field)


class Model:
    """A store: settings, marks, latest facts by column in creation order, the columns that wait, the keys of cells."""

    def __init__(self, raw, rules):
        self.raw, self.rules = raw, list(rules)
        self.mark = self.mark_before = LEAST
        self.lows = [bucket_of(LEAST, r.interval, r.offset) for r in self.rules]
        self.facts = {}  # by column, then by time
        self.waiting = None  # None if no run is open
        self.cells = [set() for _ in self.rules]

    # Events.

    def write(self, measurement, tags, fields, time):
        """Returns `ok`, or the fault of a line."""
        if time < self.mark:
            return f'fault 51 mark {self.mark}'
        for field, value in dict(fields).items():
            column = measurement, tags_in_order(tags), field
            self.facts.setdefault(column, {})[time] = value
            self.add_cells(column, time)
        return 'ok'

    def add_cells(self, column, time):
        """Creates the cells of a fact, but those below a low index."""
        for number, rule in enumerate(self.rules):
            self.add_cell(number, rule, column, time)

    def add_cell(self, number, rule, column, time):
        measurement, tags, field = column
        index = bucket_of(time, rule.interval, rule.offset)
        if rule.measurement == measurement and index >= self.lows[number]:
            self.cells[number].add((index, field, tuple(dict(tags).get(key, '') for key in rule.keep)))

    def begin(self, now):
        """Returns the marks, or the fault if a run is open."""
        if self.waiting is not None:
            return 'fault 53'
        self.mark_before = self.mark
        if self.raw:
            self.mark = max(self.mark, now - self.raw)
        for number, rule in enumerate(self.rules):
            if rule.duration:
                low = bucket_of(max(LEAST, now - rule.duration), rule.interval, rule.offset)
                self.lows[number] = max(self.lows[number], low)
        self.waiting = list(self.facts)
        return self.marks_text()

    def marks_text(self):
        lows = (f'{rule.name}={low}' for rule, low in zip(self.rules, self.lows))
        return ' '.join(['marks', str(self.mark), *lows])

    def step(self):
        """Returns `moved` or `done`."""
        if self.waiting is None:
            return 'done'
        if self.waiting:
            self.waiting.pop(0)
            return 'moved'
        for cells, low in zip(self.cells, self.lows):
            expired = [cell for cell in cells if cell[0] < low]
            if expired:
                cells.difference_update(expired[:CELLS_OF_A_STEP])
                return 'moved'
        self.waiting = None
        return 'done'

    def retain(self, now):
        marks = self.begin(now)
        if marks != 'fault 53':
            while self.step() == 'moved':
                pass
        return marks

    def maintain(self, now, steps):
        """Returns the body of the reply to `/maintain`."""
        if self.waiting is None:
            self.begin(now)
        taken, answer = 0, 'moved'
        while answer == 'moved' and taken < steps:
            answer, taken = self.step(), taken + 1
        return text_of({'done': answer == 'done', 'raw': self.mark, 'steps': taken})

    def reload(self):
        """Saves and loads: columns are in order then, and cells below a low index are gone."""
        self.facts = {column: self.facts[column] for column in sorted(self.facts, key=order_of_column)}
        if self.waiting is not None:
            self.waiting.sort(key=order_of_column)
        for cells, low in zip(self.cells, self.lows):
            cells.difference_update([cell for cell in cells if cell[0] < low])
        return 'ok'

    def add_rule(self, rule):
        """Returns the low index, or the fault of a rule that is put last."""
        fault = rule_fault(rule, self.raw, self.rules)
        if fault:
            return f'fault {fault}' if fault == 5 else f'fault {fault} rule {len(self.rules)}'
        low = -((rule.offset - self.mark) // rule.interval)
        number = len(self.rules)
        self.rules.append(rule)
        self.lows.append(low)
        self.cells.append(set())
        for column, points in self.facts.items():
            for time in points:
                if time >= self.kept_from(column):
                    self.add_cell(number, rule, column, time)
        return low

    def drop_rule(self, name):
        for number, rule in enumerate(self.rules):
            if rule.name == name:
                del self.rules[number], self.lows[number], self.cells[number]
                return 'ok'
        return 'fault 8'

    # What is there.

    def kept_from(self, column):
        return self.mark_before if self.waiting and column in self.waiting else self.mark

    def live(self):
        waiting = set(self.waiting or ())
        mark_of = {column: self.mark_before if column in waiting else self.mark for column in self.facts}
        return sum(time >= mark_of[column] for column, points in self.facts.items() for time in points)

    # Plans.

    def fault_of(self, query, pieces):
        """Returns the first fault of a plan's pieces and its piece, None if they are valid."""
        place = query.start
        for number, (_, a, b) in enumerate(pieces):
            if a != place or a >= b or b > query.end:
                return 82, number
            place = b
        if place != query.end:
            return 82, len(pieces)
        for number, piece in enumerate(pieces):
            if fault := self.piece_fault(query, piece):
                return fault, number
        return None

    def piece_fault(self, query, piece):
        name, a, b = piece
        if name is None:
            return 83 if a < self.mark else None
        found = [(rule, low) for rule, low in zip(self.rules, self.lows) if rule.name == name]
        if not found:
            return 84
        rule, low = found[0]
        if rule.measurement != query.measurement:
            return 85
        if (a - rule.offset) % rule.interval or (b - rule.offset) % rule.interval:
            return 86
        if bucket_of(a, rule.interval, rule.offset) < low:
            return 87
        divides = query.interval % rule.interval == 0 and (query.offset - rule.offset) % rule.interval == 0
        if not divides and bucket_of(a, query.interval, query.offset) != bucket_of(b - 1, query.interval, query.offset):
            return 88
        named = {*query.tags, *(tag for tag, _, _ in query.conditions)}
        return None if named <= set(rule.keep) else 89

    def plan(self, query):
        """Returns the pieces of the one plan, or its fault, 91 or 92."""
        if query.start < min(self.mark, query.end) and self.whole_buckets(query) > MOST_RULE_BUCKETS:
            return 92
        place, pieces, good = query.start, [], self.good_places(query)
        while place != query.end:
            if place >= self.mark:
                return [*pieces, (None, place, query.end)]
            if not good.get(place):
                return 91
            bucket = good[place][0]
            joined = pieces and (bucket[0], pieces[-1][1], bucket[2])
            if pieces and pieces[-1][0] == bucket[0] and self.piece_fault(query, joined) is None:
                pieces[-1] = joined
            else:
                pieces.append(bucket)
            place = bucket[2]
        return pieces

    def whole_buckets(self, query):
        """Returns how many whole buckets the rules of the measurement have in the range."""
        rules = (rule for rule in self.rules if rule.measurement == query.measurement)
        counts = ((query.end - r.offset) // r.interval + (r.offset - query.start) // r.interval for r in rules)
        return sum(max(0, count) for count in counts)

    def good_places(self, query):
        """Returns by their starts the valid buckets below the raw mark that end at a good place, in order of rules."""
        starting = {}
        for rule in self.rules:
            if rule.measurement == query.measurement:
                first = -((rule.offset - query.start) // rule.interval) * rule.interval + rule.offset
                for a in range(first, min(query.end - rule.interval + 1, self.mark), rule.interval):
                    bucket = rule.name, a, a + rule.interval
                    if self.piece_fault(query, bucket) is None:
                        starting.setdefault(a, []).append(bucket)
        good = {}
        for a in sorted(starting, reverse=True):
            good[a] = [bucket for bucket in starting[a] if self.is_good(bucket[2], query, good)]
        return good

    def is_good(self, place, query, good):
        return place == query.end or place >= self.mark or bool(good.get(place))

    # Answers.

    def answer_of(self, query):
        """Returns pairs of a group and its rows, pairs of a bucket's start and its facts, of all facts accepted."""
        groups = {}
        for (measurement, tags, field), points in self.facts.items():
            values = dict(tags)
            if measurement != query.measurement or field != query.field:
                continue
            if any((values.get(tag, '') == value) != is_equal for tag, is_equal, value in query.conditions):
                continue
            group = tuple(values.get(tag, '') for tag in sorted(query.tags, key=in_bytes))
            for time, value in points.items():
                if query.start <= time < query.end:
                    index = bucket_of(time, query.interval, query.offset)
                    groups.setdefault(group, {}).setdefault(index, []).append((time, value))
        first = bucket_of(query.start, query.interval, query.offset)
        last = bucket_of(query.end - 1, query.interval, query.offset)
        starts = [(index, index * query.interval + query.offset) for index in range(first, last + 1)]
        in_order = sorted(groups, key=lambda group: [in_bytes(value) for value in group])
        return [(group, [(start, groups[group].get(index, [])) for index, start in starts]) for group in in_order]

    def outcome(self, query, pieces, epoch):
        """Returns the result of a statement that follows a plan, or its own if none is given."""
        if pieces is None:
            pieces = self.plan(query)
            if isinstance(pieces, int):
                return {'error': f'fault {pieces}'}
        elif fault := self.fault_of(query, pieces):
            return {'error': 'fault %d piece %d' % fault}
        names = ['time', *(name for _, name in query.columns)]
        series = []
        for group, rows in self.answer_of(query):
            tags = {'tags': dict(zip(sorted(query.tags, key=in_bytes), group))} if query.tags else {}
            series.append({'columns': names, 'name': query.measurement, **tags, 'values': filled(query, rows, epoch)})
        return {'series': series} if series else {}

    def reply(self, statements, certificate, epoch):
        """Returns whether the reply to pairs of an offset and a query is good, and its body."""
        if fault := first_fault(statements):
            return False, text_of({'error': fault})
        if certificate is not None and len(statements) > 1:
            return False, text_of({'error': 'fault 94'})
        pieces = None if certificate is None else certificate_of(certificate)
        if isinstance(pieces, int):
            return True, results([{'error': f'fault 81 at {pieces}'}])
        return True, results(self.outcome(query, pieces, epoch) for _, query in statements)

    def explanation(self, statements):
        if fault := first_fault(statements):
            return False, text_of({'error': fault})
        plans = [self.plan(query) for _, query in statements]
        return True, results({'error': f'fault {p}'} if p in (91, 92) else {'cert': text_of_plan(p)} for p in plans)

    def count(self, measurement, field, a, b):
        """Returns the answer of `count`."""
        if not all(LEAST <= t <= GREATEST for t in (a, b)) or b - a >= 2**63:
            return 'fault 74 at 0'
        if a >= b:
            return '0'
        plan = self.plan(Query(measurement, field, (), (), a, b, b - a, a, (), None))
        if isinstance(plan, int):
            return f'fault {plan}'
        columns = (points for (m, _, f), points in self.facts.items() if (m, f) == (measurement, field))
        return str(sum(a <= time < b for points in columns for time in points))


def rule_fault(rule, raw, before):
    """Returns the number of the fault of a rule behind others, None if it has none."""
    if len(before) >= 32:
        return 5
    if not re.fullmatch('[a-z0-9_]{1,32}', rule.name):
        return 4
    if any(rule.name == other.name for other in before):
        return 3
    if not 10**9 <= rule.interval <= 366 * 24 * UNITS['h']:
        return 1
    if len(rule.keep) > 16 or len(set(rule.keep)) < len(rule.keep):
        return 6
    return 2 if rule.duration and (raw == 0 or rule.duration < raw) else None


def first_fault(statements):
    """Returns the first fault of a text that the grammar takes, None if it has none."""
    for offset, query in statements:
        names = [name for _, name in query.columns]
        buckets = bucket_of(query.end - 1, query.interval, query.offset) if query.start is not None else 0
        if len(set(names)) < len(names) or 'time' in names:
            return f'fault 75 at {offset}'
        if query.start is None:
            return f'fault 73 at {offset}'
        first = bucket_of(query.start, query.interval, query.offset)
        if query.start < query.end and first * query.interval + query.offset < LEAST:
            return f'fault 78 at {offset}'
        if query.start < query.end and buckets - first >= MOST_BUCKETS:
            return f'fault 77 at {offset}'
    return None


def value_of(function, facts):
    """Returns what a function gives of facts, at least one."""
    values = [value for _, value in facts]
    if function == 'mean':
        mean = Fraction(sum(values), len(values))
        return f'{mean.numerator}/{mean.denominator}'
    if function in ('first', 'last'):
        extreme = (min if function == 'first' else max)(time for time, _ in facts)
        return max(value for time, value in facts if time == extreme)
    value = {'count': len, 'sum': sum, 'min': min, 'max': max}[function](values)
    return value if -(2**63) <= value < 2**63 else str(value)


def filled(query, rows, epoch):
    """Returns the rows of a series as lists, with empty buckets filled."""
    values, last = [], [None] * len(query.columns)
    for start, facts in rows:
        if facts:
            last = [value_of(function, facts) for function, _ in query.columns]
            row = last
        elif query.fill == 'none':
            continue
        elif query.fill == 'previous':
            row = last
        elif query.fill == 'null':
            row = [0 if function == 'count' else None for function, _ in query.columns]
        else:
            row = [f'{query.fill}/1' if function == 'mean' else query.fill for function, _ in query.columns]
        values.append([time_of(start, epoch), *row])
    return values


def time_of(time, epoch):
    """Returns a time in a reply: whole units, or a date and time of day."""
    if epoch != 'text':
        return time // UNITS[epoch]
    seconds, fraction = divmod(time, 10**9)
    days, second = divmod(seconds, 86400)
    day = datetime.date(1970, 1, 1) + datetime.timedelta(days)
    clock = f'{second // 3600:02}:{second // 60 % 60:02}:{second % 60:02}'
    return f'{day}T{clock}{f".{fraction:09}".rstrip("0") if fraction else ""}Z'


def text_of(value):
    return json.dumps(value, ensure_ascii=False, separators=(',', ':'), sort_keys=True)


def results(outcomes):
    return text_of({'results': [{**outcome, 'statement_id': number} for number, outcome in enumerate(outcomes)]})


def text_of_plan(pieces):
    lines = (f'raw {a} {b}\n' if name is None else f'rollup {name} {a} {b}\n' for name, a, b in pieces)
    return ''.join(itertools.chain(['plan 1\n'], lines, ['end\n']))


NUMBER = '(0|-?[1-9][0-9]*)'
PIECE = re.compile(f'raw {NUMBER} {NUMBER}|rollup ([a-z0-9_]{{1,32}}) {NUMBER} {NUMBER}')


def certificate_of(text):
    """Returns the pieces of a certificate's text, or the offset of its fault."""
    pieces, at, lines = [], 0, text.split('\n')
    for number, line in enumerate(lines):
        is_whole = number + 1 < len(lines)
        if line == '' and not is_whole:
            return at
        piece = PIECE.fullmatch(line)
        if number and line == 'end' and is_whole:
            rest = '\n'.join(lines[number + 1 :])
            return pieces if not rest else at + len('end\n')
        if not is_whole or (line != 'plan 1' if number == 0 else not piece):
            return at
        if piece:
            a, b = bounds_of(piece)
            if not all(-(2**63) <= bound < 2**63 for bound in (a, b)):
                return at
            pieces.append((piece[3], a, b))
        at += len(line) + 1
    return at


def bounds_of(piece):
    return (int(piece[1]), int(piece[2])) if piece[3] is None else (int(piece[4]), int(piece[5]))
