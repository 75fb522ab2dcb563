"""Makes random rules, lines, queries and certificates for tests/soak, each as text and as what the text means."""
import datetime
import json
import random

from model import GREATEST, LEAST, UNITS, Query, Rule, bucket_of

SECOND = 10**9
FUNCTIONS = ('count', 'sum', 'min', 'max', 'first', 'last', 'mean')
MEASUREMENTS = ('cpu', 'cpu', 'cpu', 'm x', 'é"\\n')
FIELDS = ('v', 'v', 'v', 'w 1', 'f=2')
TAG_VALUES = {'host': ('a', 'b', 'c', 'A,1'), 'rack': ('x', 'y z'), 'd=c': ('µ', '"q"')}
INTERVALS = (1, 2, 5, 7, 10, 30, 60, 60, 90, 120, 300)
EPOCHS = ('ns', 'n', 'u', 'µ', 'ms', 's', 'm', 'h')

# Lines that are refused or no lines, with their answers.
ODD_LINES = (
    ('# x', 'none'),
    ('', 'none'),
    ('cpu', 'fault 14 at 3'),
    ('cpu v=1.5', 'fault 16 at 4'),
    ('cpu,host=a v="x y",w=1i 5', 'fault 16 at 11'),
    (',host=a v=1i', 'fault 11 at 0'),
    ('cpu,host= v=1i', 'fault 12 at 4'),
    ('cpu,host=a,host=b v=1i', 'fault 13 at 11'),
    ('cpu v', 'fault 15 at 4'),
    ('cpu v=9223372036854775808i', 'fault 17 at 4'),
    ('cpu v=1i 1.5', 'fault 18 at 9'),
    ('cpu v=1i 9223372036854775807', 'fault 19 at 9'),
    ('cpu,time=1 v=1i', 'fault 21 at 4'),
)


class World:
    """Names, times and rules around a base time, all from one seed."""

    def __init__(self, seed, is_after_1970=False):
        self.random = random.Random(seed)
        span = self.random.choice((200, 600, 600, 4000)) * SECOND
        self.span = span
        bases = (0, 0, 1_700_000_000 * SECOND, -5000 * SECOND, -(10**12) - 7, LEAST + 3, GREATEST - span - 11)
        self.base = self.random.choice([base for base in bases if base >= 0 or not is_after_1970])
        self.moment = self.base + self.random.randrange(span // 4)
        self.least_moment = 0 if is_after_1970 else LEAST
        self.raw = self.random.choice((0, 20, 30, 61, 100, 150)) * SECOND
        self.rules = []
        for name in self.random.sample(('m1', 'x', 'h_1', 'r2', 'r3'), self.random.randrange(4)):
            self.rules.append(self.rule(name))

    def chance(self, part):
        return self.random.random() < part

    # Rules.

    def rule(self, name, is_kept=True):
        """Returns a random rule; with is_kept one that keeps its cells at least as long as raw points are kept."""
        choice = self.random.choice
        interval = choice(INTERVALS) * SECOND
        offset = choice((0, 0, 0, 3 * SECOND, -7 * SECOND, interval + 5, 86399 * SECOND))
        keep = tuple(self.random.sample(sorted(TAG_VALUES), self.random.randrange(4)))
        duration = choice((0, 0, self.raw, self.raw + 50 * SECOND, self.raw + 200 * SECOND))
        if is_kept and (self.raw == 0 or duration < self.raw):
            duration = 0
        return Rule(name, choice(MEASUREMENTS), interval, offset, keep, duration)

    def settings(self):
        rules = ','.join(rule_text(rule) for rule in self.rules)
        return '{"raw":"%s","rules":[%s]}' % (duration_text(self.raw, 'INF'), rules)

    # Times.

    def later_moment(self):
        """Moves the moment, mostly forwards, and returns it."""
        step = self.random.choice((1, 5, 10, 30, 60, -20)) * SECOND + self.random.choice((0, 0, 1, 999))
        self.moment = max(self.least_moment, min(GREATEST, self.moment + step))
        return self.moment

    def time(self):
        """Returns the time of a point: mostly near the moment, often one that came before, or anywhere in the span."""
        if self.chance(0.2):
            t = self.base + self.random.randrange(self.span)
        else:
            t = self.moment + self.random.randrange(-80, 10) * SECOND
        if self.chance(0.9):
            t -= t % SECOND
        return max(LEAST, min(GREATEST, t))

    # Lines.

    def line(self, precision):
        """Returns a line, and its parts: measurement, tags, fields, time; the moment if it has no timestamp."""
        measurement = self.random.choice(MEASUREMENTS)
        tags = [(key, self.random.choice(values)) for key, values in TAG_VALUES.items() if self.chance(0.5)]
        self.random.shuffle(tags)
        fields = [(self.random.choice(FIELDS), self.value()) for _ in range(self.random.choice((1, 1, 1, 2, 4)))]
        unit = UNITS[precision]
        stamp = self.time() // unit
        time = stamp * unit
        if time < LEAST:
            stamp, time = stamp + 1, time + unit
        key = escaped(measurement, ', ') + ''.join(f',{escaped(k, ", =")}={escaped(v, ", =")}' for k, v in tags)
        text = f'{self.space(0)}{key}{self.space(1)}' + ','.join(f'{escaped(k, ", =")}={v}i' for k, v in fields)
        if self.chance(0.1):
            return text + self.space(0), (measurement, tags, fields, self.moment)
        return f'{text}{self.space(1)}{stamp}{self.space(0)}', (measurement, tags, fields, time)

    def space(self, least):
        return ' ' * (least + (self.random.randrange(3) if self.chance(0.05) else 0))

    def value(self):
        if self.chance(0.05):
            return self.random.choice((-(2**63), 2**63 - 1, 0))
        return self.random.randrange(-20, 100)

    # Queries.

    def statement(self, model):
        """Returns a statement and the query that it is; in most cases some rule's cells fit it."""
        choice = self.random.choice
        rule = choice(model.rules) if model.rules and self.chance(0.7) else None
        functions = [choice(FUNCTIONS) for _ in range(choice((1, 1, 2, 3)))]
        if self.chance(0.97):
            functions = list(dict.fromkeys(functions))
        columns = tuple((f, choice((f, f, 'a_' + f, 'a ' + f))) for f in functions)
        named = sorted(rule.keep if rule else TAG_VALUES)
        conditions = tuple(self.condition(choice(named)) for _ in range(choice((0, 0, 0, 1, 2))) if named)
        tags = [choice(named) for _ in range(choice((0, 0, 1, 2))) if named]
        interval, offset = choice(INTERVALS) * SECOND, choice((0, 0, 0, 0, 3 * SECOND, -7 * SECOND, 1, 10**12))
        if rule and self.chance(0.9):
            interval = rule.interval * choice((1, 1, 2, 3, 10))
            offset = rule.offset + choice((0, 0, 1, -2)) * rule.interval
        bounds, start, end = self.range(model, rule, interval)
        fill = choice(('null', 'null', 'none', 'previous', -5, 0, 7))
        measurement, field = rule.measurement if rule else choice(MEASUREMENTS), choice(FIELDS)
        groups = tuple(dict.fromkeys(tags))
        query = Query(measurement, field, columns, conditions, start, end, interval, offset, groups, fill)
        return self.text_of(query, bounds, tags), query

    def condition(self, tag):
        return tag, self.chance(0.7), self.random.choice((*TAG_VALUES[tag], '', 'none'))

    def range(self, model, rule, interval):
        """Returns the bounds of time as text, and the range that they are: start None if there is no lower one."""
        choice = self.random.choice
        end = self.moment + self.random.randrange(-60, 60) * SECOND
        start = end - self.random.randrange(200) * SECOND
        if self.chance(0.2):
            start = self.base + self.random.randrange(self.span)
        if self.chance(0.3):
            start = model.mark + choice((-100 * SECOND, -30 * SECOND, -1, 0, 0, 1, SECOND))
        if rule and self.chance(0.9):
            start, end = (t - (t - rule.offset) % rule.interval for t in (start, end))
        elif self.chance(0.5):
            start -= start % interval
        if self.chance(0.01):
            start = end - choice((min(interval, 10 * SECOND) * 10_000, interval * 10_001, 15 * 86400 * SECOND))
        start, end = (max(LEAST, min(GREATEST, t)) for t in (start, end))
        if self.chance(0.02):
            return [self.upper_bound(end)], None, end
        bounds = [self.lower_bound(start)]
        if self.chance(0.05):
            bounds.append(self.lower_bound(max(LEAST, start - SECOND)))
        if self.chance(0.05):
            bounds, end = [self.comparison('=', start)], start + 1
        elif self.chance(0.85):
            bounds.append(self.upper_bound(end))
        else:
            end = self.moment + 1
        return bounds, start, max(start, end)

    def lower_bound(self, t):
        return self.comparison('>', t - 1) if t > LEAST and self.chance(0.3) else self.comparison('>=', t)

    def upper_bound(self, t):
        return self.comparison('<=', t - 1) if t > LEAST and self.chance(0.3) else self.comparison('<', t)

    def comparison(self, operator, t):
        time = self.random.choice(('time', 'time', 'TIME', '"time"'))
        return f'{time} {operator} {self.moment_text(t)}'

    def moment_text(self, t):
        """Returns one of the texts of a time."""
        kind = self.random.randrange(6)
        if kind == 0:
            return signed_text(t)
        if kind == 1:
            seconds, fraction = divmod(t, SECOND)
            date = datetime.datetime(1970, 1, 1) + datetime.timedelta(seconds=seconds)
            text = f'{date:%Y-%m-%d}{self.random.choice("T ")}{date:%H:%M:%S}' + (f'.{fraction:09}' if fraction else '')
            return f"'{text}{self.random.choice(('', 'Z'))}'"
        if kind == 2 and abs(t - self.moment) < 2**63:
            return f'now() {"-" if t < self.moment else "+"} {duration_text(abs(t - self.moment))}'
        if kind == 3 and abs(t) < 2**62:
            return f'{t - 5 * SECOND} + 5s'
        return str(t)

    def text_of(self, query, bounds, tags):
        word = (lambda w: w.upper()) if self.chance(0.8) else (lambda w: w)
        names = [f' {word("as")} {self.name(n)}' if n != f or self.chance(0.1) else '' for f, n in query.columns]
        calls = [f'{word(f)}({self.name(query.field)})' for f, _ in query.columns]
        columns = ','.join(map(str.__add__, calls, names))
        terms = bounds + [self.condition_text(*c) for c in query.conditions]
        self.random.shuffle(terms)
        terms = [f'({t})' if self.chance(0.1) else t for t in terms]
        offset = ', ' + signed_text(query.offset) if query.offset or self.chance(0.1) else ''
        items = [f'time({duration_text(query.interval)}{offset})', *(self.name(tag) for tag in tags)]
        self.random.shuffle(items)
        fill = '' if query.fill == 'null' and self.chance(0.8) else f' {word("fill")}({query.fill})'
        select = f'{word("select")} {columns} {word("from")} {self.name(query.measurement)} {word("where")} '
        return select + f' {word("and")} '.join(terms) + f' {word("group by")} {", ".join(items)}{fill}'

    def condition_text(self, tag, is_equal, value):
        operator = '=' if is_equal else self.random.choice(('!=', '<>'))
        return f"{self.name(tag)} {operator} '{query_escaped(value, chr(39))}'"

    def name(self, name):
        is_plain = name.isascii() and name.replace('_', 'a').isalnum()
        return name if is_plain and self.chance(0.8) else f'"{query_escaped(name, chr(34))}"'

    def statements(self, model):
        """Returns a text of statements, and pairs of an offset in it and a query."""
        text, pairs = self.space(0), []
        for _ in range(self.random.choice((1, 1, 1, 1, 1, 2, 3))):
            if pairs:
                text += self.space(0) + ';' + self.space(0)
            statement, query = self.statement(model)
            pairs.append((len(text.encode()), query))
            text += statement
        return text + (';' if self.chance(0.05) else ''), pairs

    # Certificates.

    def pieces(self, model, query):
        """Returns random pieces that lead through the range of a query, of which most are valid."""
        place, pieces = query.start, []
        while place < query.end and len(pieces) < 300:
            pieces.append(self.piece(model, query, place))
            place = pieces[-1][2]
        return pieces

    def piece(self, model, query, place):
        choices = []
        for rule in model.rules:
            one = rule.name, place, place + rule.interval
            if one[2] <= query.end and model.piece_fault(query, one) is None:
                choices.append((rule, self.random.choice((1, 1, 2, 5, (query.end - place) // rule.interval))))
        if choices and (place < model.mark or self.chance(0.7)):
            rule, count = self.random.choice(choices)
            for n in (count, 1):
                many = rule.name, place, place + n * rule.interval
                if many[2] <= query.end and model.piece_fault(query, many) is None:
                    return many
        if model.rules and self.chance(0.1):
            rule = self.random.choice(model.rules)
            return rule.name, place, query.end
        middle = place + self.random.randrange(1, query.end - place + 1)
        return None, place, self.random.choice((query.end, query.end, middle))

    def spoiled(self, pieces):
        """Returns pieces with a mistake, maybe."""
        pieces = [list(piece) for piece in pieces]
        if pieces and self.chance(0.3):
            piece = self.random.choice(pieces)
            change = self.random.randrange(4)
            if change == 0:
                piece[0] = self.random.choice(('zz', 'm1', 'x', None))
            elif change == 1:
                pieces.remove(piece)
            elif change == 2:
                piece[2] += self.random.choice((-1, 1, SECOND))
            else:
                piece[1] -= self.random.choice((1, SECOND))
        return [tuple(piece) for piece in pieces]


def rule_text(rule):
    keep = json.dumps(rule.keep, ensure_ascii=False)
    offset = signed_text(rule.offset)
    return '{"name":"%s","measurement":%s,"interval":"%s","offset":"%s","keep":%s,"duration":"%s"}' % (
        rule.name,
        json.dumps(rule.measurement, ensure_ascii=False),
        duration_text(rule.interval),
        offset,
        keep,
        duration_text(rule.duration, 'INF'),
    )


def signed_text(nanoseconds):
    return ('-' if nanoseconds < 0 else '') + duration_text(abs(nanoseconds))


def duration_text(nanoseconds, zero='0s'):
    """Returns a duration in the largest units that it consists of."""
    if nanoseconds == 0:
        return zero
    text = ''
    for unit in ('h', 'm', 's', 'ms', 'u', 'ns'):
        count, nanoseconds = divmod(nanoseconds, UNITS[unit])
        text += f'{count}{unit}' if count else ''
    return text


def escaped(text, special):
    return ''.join('\\' + sign if sign in special else sign for sign in text)


def query_escaped(text, quote):
    return text.replace('\\', '\\\\').replace(quote, '\\' + quote).replace('\n', '\\n')
