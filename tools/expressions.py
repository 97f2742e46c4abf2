"""Expressions of conditions and mappings: a model of what one means, written from docs/FORMATS.md and docs/FUNCTIONS.md alone.

usage: python3 tools/expressions.py --check    compares it with the `lines` cases of crates/case_runs: each value and error, and
                                               that just the texts with a fault of the grammar are no expression
The types are those of tools/cel_types.py.
"""
import re
import sys
from datetime import datetime, timedelta

from cel_types import LITERALS, MACROS, ROWS, Fault, Node, Parser, fits, read, type_of
from case_line import unescaped
from forms import read_json

RESERVED = set('as break const continue else for function if import let loop namespace package return var void while'.split())
KEYWORDS = set(LITERALS) | {'in'}
ESCAPES = {'\\': '\\', "'": "'", '"': '"', 'n': '\n', 'r': '\r', 't': '\t'}
ESCAPE = re.compile(r'\\(?:u([0-9A-Fa-f]{4})|(.))', re.DOTALL)
LEAST, MOST = -2 ** 63, 2 ** 63 - 1
LONGEST_SPAN, HEAVIEST, WIDEST = 315_576_000_000, 65_536, 256
EPOCH = datetime(1970, 1, 1)
FIRST, LAST = (int((moment - EPOCH).total_seconds()) for moment in (datetime(1, 1, 1), datetime(9999, 12, 31, 23, 59, 59)))
CALLS = {(style, name, kinds) for style, name, kinds, _, _ in ROWS}


class NoExpression(Exception):
    """The text has a fault of the grammar."""


class EvalError(Exception):
    """What an expression gives in place of a value."""


class Opaque:
    """A JSON number that is no integer of 64 bits."""


class Moment(int):
    """Seconds since 1970."""


class Span(int):
    """Seconds between two moments."""


# Reading.

def unquoted(token):
    """The text that a token stands for."""
    if token[0] == 'r':
        return token[2:-1]

    def meant(found):
        code = found[1] and int(found[1], 16)
        if code is None and found[2] not in ESCAPES or code is not None and 0xd800 <= code <= 0xdfff:
            raise NoExpression(token)
        return ESCAPES[found[2]] if code is None else chr(code)
    return ESCAPE.sub(meant, token[1:-1])


def has_room(tokens):
    """Whether there are at most 512 tokens, and at most 32 brackets open at a time."""
    level = most = 0
    for kind, word in tokens:
        level += (word in '([{') - (word in ')]}') if kind == 'sign' else 0
        most = max(most, level)
    return len(tokens) <= 513 and most <= 32


class Reader(Parser):
    """Reads an expression, or finds that it is none. A literal's node carries its value."""

    def __init__(self, text):
        if len(text.encode()) > 4096:
            raise NoExpression('too long')
        try:
            super().__init__(text)
        except SyntaxError as fault:
            raise NoExpression(text) from fault
        if not has_room(self.tokens):
            raise NoExpression('too many')

    def need(self, sign):
        if not self.takes(sign):
            raise NoExpression(sign)

    def unary(self):
        sign, signs = self.next(), 0
        while sign in ('!', '-') and self.takes(sign):
            signs += 1
        negative = sign == '-' and self.tokens[0][0] == 'int' and self.tokens[1][1] not in ('.', '[')
        tree = self.integer(-1) if negative else self.member()
        for _ in range(signs - negative):
            tree = Node('operator', sign, tree)
        return tree

    def integer(self, factor):
        value = int(self.take(), 0) if self.next().startswith('0x') else int(self.take())
        return literal('int', within(factor * value, LEAST, MOST, NoExpression))

    def selection(self, tree, name):
        if not re.fullmatch('[A-Za-z_][A-Za-z_0-9]*', name) or name in KEYWORDS:
            raise NoExpression(name)
        if not self.takes('('):
            return Node('select', name, tree)
        arguments = self.several(')', self.expression)
        if (name, len(arguments)) not in MACROS:
            return Node('member', name, tree, *arguments)
        if arguments[0].form != 'name':
            raise NoExpression(name)
        return Node('macro', (name, arguments[0].word), tree, *arguments[1:])

    def primary(self):
        kind, word = self.tokens[0]
        if kind == 'int':
            return self.integer(1)
        if kind == 'text':
            return literal('string', unquoted(self.take()))
        if word in LITERALS:
            return literal(LITERALS[word], {'true': True, 'false': False, 'null': None}[self.take()])
        if kind == 'end' or kind == 'word' and word in KEYWORDS | RESERVED or kind == 'sign' and word not in ('(', '[', '{'):
            raise NoExpression(word)
        return super().primary()

    def named(self, word):
        if not self.takes('('):
            return Node('name', word)
        arguments = self.several(')', self.expression)
        if (word, len(arguments)) != ('has', 1):
            return Node('function', word, *arguments)
        if arguments[0].form != 'select':
            raise NoExpression(word)
        return Node('has', arguments[0].word, *arguments[0].children)

    def several(self, end, part):
        """Parts with commas between them; behind the last of a list or a map there may be one too."""
        found = []
        while self.next() != end:
            found.append(part())
            if self.next() != end:
                self.need(',')
                if end == ')' and self.next() == end:
                    raise NoExpression(end)
        self.need(end)
        return found


def literal(kind, value):
    node = Node('literal', kind)
    node.value = value
    return node


def macro_depth(node):
    """How deep macros stand in the arguments of others; what stands in a range isn't inside its macro."""
    depths = [macro_depth(child) for child in node.children]
    return max(depths[0], 1 + max(depths[1:])) if node.form == 'macro' else max(depths, default=0)


def parsed(text):
    tree = Reader(text).whole()
    if macro_depth(tree) > 2:
        raise NoExpression('too deep')
    tree.number_from(0)
    return tree


def checked(text, names, wanted):
    """The tree of a text whose type fits, or none."""
    try:
        tree = parsed(text)
        return tree if fits(type_of(tree, names), wanted) else None
    except (NoExpression, Fault):
        return None


# Values: null, bools, integers, texts, lists and maps as Python has them.

def value_of(tree):
    """The value that a JSON value gives."""
    if isinstance(tree, list):
        return [value_of(part) for part in tree]
    if isinstance(tree, dict):
        return {name: value_of(part) for name, part in tree.items()}
    number = isinstance(tree, (int, float)) and not isinstance(tree, bool)
    return tree if not number or type(tree) is int and LEAST <= tree <= MOST else Opaque()


def kind_of(value):
    kinds = {bool: 'bool', int: 'int', str: 'string', list: 'list', dict: 'map', Moment: 'timestamp', Span: 'duration', Opaque: 'opaque'}
    return kinds.get(type(value), 'null')


def parts_of(value):
    return value if isinstance(value, list) else value.values() if isinstance(value, dict) else []


def holds_opaque(value):
    return isinstance(value, Opaque) or any(holds_opaque(part) for part in parts_of(value))


def weight(value):
    keys = sum(len(name.encode()) + 1 for name in value) if isinstance(value, dict) else 0
    text = len(value.encode()) if isinstance(value, str) else 0
    return 1 + text + keys + sum(weight(part) for part in parts_of(value))


def weighed(value):
    if weight(value) > HEAVIEST:
        raise EvalError('TooLong')
    return value


def within(value, least, most, error):
    if not least <= value <= most:
        raise error
    return value


def same(one, other):
    if kind_of(one) != kind_of(other):
        return False
    if isinstance(one, list):
        return len(one) == len(other) and all(map(same, one, other))
    if isinstance(one, dict):
        return one.keys() == other.keys() and all(same(one[name], other[name]) for name in one)
    return one == other


def date_of(moment):
    return EPOCH + timedelta(seconds=int(moment))


def text_of(moment):
    date = date_of(moment)
    return f'{date.year:04}-{date:%m-%dT%H:%M:%SZ}'


# Functions, on arguments of the kinds that one of their rows has.

def made(kind, value):
    """An integer, a moment or a span in its range."""
    least, most, form = {'int': (LEAST, MOST, int), 'timestamp': (FIRST, LAST, Moment), 'duration': (-LONGEST_SPAN, LONGEST_SPAN, Span)}[kind]
    return form(within(int(value), least, most, EvalError('Overflow')))


def quotient(one, other):
    if other == 0:
        raise EvalError('Divide')
    size = abs(one) // abs(other)
    return made('int', size if (one < 0) == (other < 0) else -size)


def plus(one, other):
    if kind_of(one) in ('string', 'list'):
        return weighed(one + other)
    return made('timestamp' if Moment in (type(one), type(other)) else kind_of(one), int(one) + int(other))


def minus(one, other):
    kind = 'duration' if isinstance(other, Moment) else kind_of(one)
    return made(kind, int(one) - int(other))


def remainder(one, other):
    return int(one) - int(other) * quotient(one, other)


def integer_of(value):
    if not isinstance(value, str):
        return int(value)
    if not re.fullmatch('-?[0-9]+', value):
        raise EvalError('BadText')
    return within(int(value), LEAST, MOST, EvalError('BadText'))


def string_of(value):
    if isinstance(value, bool):
        return 'true' if value else 'false'
    return text_of(value) if isinstance(value, Moment) else str(value)


def moment_of(value):
    if isinstance(value, Moment):
        return value
    try:
        if not re.fullmatch('[0-9]{4}-[0-9]{2}-[0-9]{2}T[0-9]{2}:[0-9]{2}:[0-9]{2}Z', value):
            raise ValueError(value)
        return Moment((datetime.strptime(value, '%Y-%m-%dT%H:%M:%SZ') - EPOCH).total_seconds())
    except ValueError:
        raise EvalError('BadText') from None


def span_of(value):
    if isinstance(value, Span):
        return value
    if not re.fullmatch('-?([0-9]+[hms])+', value):
        raise EvalError('BadText')
    seconds = sum(int(count) * {'h': 3600, 'm': 60, 's': 1}[unit] for count, unit in re.findall('([0-9]+)([hms])', value))
    return Span(within(-seconds if value[0] == '-' else seconds, -LONGEST_SPAN, LONGEST_SPAN, EvalError('BadText')))


def extracted(text, template):
    found = re.fullmatch(r'([^{}]*)\{[A-Za-z_][A-Za-z_0-9]*\}([^{}]*)', template)
    if not found:
        raise EvalError('BadText')
    _, front, rest = text.partition(found[1]) if found[1] else ('', 'there', text)
    if not front or found[2] and found[2] not in rest:
        return ''
    return rest.partition(found[2])[0] if found[2] else rest


def pieces(text, separator):
    if not separator:
        raise EvalError('BadText')
    return weighed(text.split(separator))


def joined(texts, separator):
    if not all(isinstance(text, str) for text in texts):
        raise EvalError('NoOverload')
    return weighed(separator.join(texts))


def lowered(text):
    return ''.join(chr(ord(letter) + 32) if 'A' <= letter <= 'Z' else letter for letter in text)


FUNCTIONS = {
    '!': lambda one: not one, '+': plus, '*': lambda one, other: made('int', one * other), '/': quotient, '%': remainder,
    '-': lambda one, *other: minus(one, *other) if other else made('int', -one),
    '<': lambda one, other: one < other, '<=': lambda one, other: one <= other,
    '>': lambda one, other: one > other, '>=': lambda one, other: one >= other,
    'size': len, 'contains': lambda text, part: part in text, 'startsWith': str.startswith, 'endsWith': str.endswith,
    'extract': extracted, 'split': pieces, 'join': joined, 'lowerAscii': lowered,
    'int': integer_of, 'string': string_of, 'timestamp': moment_of, 'duration': span_of,
    'getFullYear': lambda at: date_of(at).year, 'getMonth': lambda at: date_of(at).month - 1,
    'getDayOfMonth': lambda at: date_of(at).day - 1, 'getDate': lambda at: date_of(at).day,
    'getDayOfYear': lambda at: date_of(at).timetuple().tm_yday - 1, 'getDayOfWeek': lambda at: date_of(at).isoweekday() % 7,
    'getHours': lambda at: date_of(at).hour, 'getMinutes': lambda at: date_of(at).minute, 'getSeconds': lambda at: date_of(at).second,
}


def called(style, name, values):
    if name != 'size' and any(holds_opaque(value) for value in values):
        raise EvalError('NoOverload')
    if (style, name, ' '.join(map(kind_of, values))) not in CALLS:
        raise EvalError('NoOverload')
    return FUNCTIONS[name](*values)


# What a tree means.

def meaning(node, env):
    """The value of a tree whose names have these values."""
    if node.form == 'literal':
        return node.value
    if node.form == 'name':
        if node.word not in env:
            raise EvalError('Unbound')
        return env[node.word]
    if node.form == 'choice':
        return meaning(node.children[1 if as_bool(meaning(node.children[0], env)) else 2], env)
    if node.form == 'binary' and node.word in ('&&', '||'):
        return folded(node.word == '||', [(child, env) for child in node.children])
    if node.form == 'macro':
        return macro(node, env)
    return of_values(node, [meaning(child, env) for child in node.children])


def of_values(node, values):
    """The value of a node that takes all its parts."""
    if node.form == 'list':
        return weighed(values)
    if node.form == 'map':
        return weighed(map_of(values[::2], values[1::2]))
    if node.form in ('select', 'has'):
        return selected(node, *values)
    if node.form == 'index':
        return item(*values)
    if node.form == 'binary' and node.word in ('==', '!=', 'in'):
        return compared(node.word, *values)
    return called('operator' if node.form == 'binary' else node.form, node.word, values)


def as_bool(value):
    if not isinstance(value, bool):
        raise EvalError('NoOverload')
    return value


def folded(decisive, parts):
    """What `||` (decisive is true) or `&&` gives of these parts: a decisive one, or else the first error."""
    error = None
    for node, env in parts:
        try:
            if as_bool(meaning(node, env)) == decisive:
                return decisive
        except EvalError as found:
            error = error or found
    if error:
        raise error
    return not decisive


def map_of(keys, values):
    made_map = {}
    for key, value in zip(keys, values):
        if not isinstance(key, str):
            raise EvalError('NoOverload')
        if key in made_map:
            raise EvalError('BadText')
        made_map[key] = value
    return made_map


def selected(node, whole):
    if not isinstance(whole, dict):
        raise EvalError('NoOverload')
    if node.form == 'has':
        return node.word in whole
    return item(whole, node.word)


def item(whole, index):
    kinds = kind_of(whole), kind_of(index)
    if kinds not in (('map', 'string'), ('list', 'int')):
        raise EvalError('NoOverload')
    if not (index in whole if isinstance(whole, dict) else 0 <= index < len(whole)):
        raise EvalError('NoKey' if isinstance(whole, dict) else 'Index')
    return whole[index]


def compared(sign, one, other):
    if holds_opaque(one) or holds_opaque(other):
        raise EvalError('NoOverload')
    if sign != 'in':
        return same(one, other) == (sign == '==')
    if isinstance(other, list):
        return any(same(one, part) for part in other)
    if not isinstance(other, dict) or not isinstance(one, str):
        raise EvalError('NoOverload')
    return one in other


def macro(node, env):
    name, variable = node.word
    over = meaning(node.children[0], env)
    if not isinstance(over, (list, dict)):
        raise EvalError('NoOverload')
    if len(over) > WIDEST:
        raise EvalError('TooLong')
    items = over if isinstance(over, list) else sorted(over, key=str.encode)
    envs = [{**env, variable: part} for part in items]
    if name in ('all', 'exists'):
        return folded(name == 'exists', [(node.children[1], one) for one in envs])
    if name == 'map':
        *tests, last = node.children[1:]
        return weighed([meaning(last, one) for one in envs if all(as_bool(meaning(test, one)) for test in tests)])
    kept = [part for part, one in zip(items, envs) if as_bool(meaning(node.children[1], one))]
    return len(kept) == 1 if name == 'exists_one' else weighed(kept)


def result(tree, env):
    """The value, or none where there is an error."""
    try:
        return meaning(tree, env)
    except EvalError:
        return None


def holds(tree, env):
    """Whether a condition is absent or true; one with an error doesn't hold."""
    return tree is None or result(tree, env) is True


# The cases.

def shown(value):
    kind = kind_of(value)
    if kind == 'string':
        return '"' + re.sub(r'[\\"\n\r\t]', lambda found: {'\n': r'\n', '\r': r'\r', '\t': r'\t'}.get(found[0], '\\' + found[0]), value) + '"'
    if kind == 'list':
        return '[' + ', '.join(map(shown, value)) + ']'
    if kind == 'map':
        return '{' + ', '.join(f'{shown(name)}: {shown(value[name])}' for name in sorted(value, key=str.encode)) + '}'
    return {'null': lambda: 'null', 'bool': lambda: string_of(value), 'int': lambda: str(value), 'opaque': lambda: 'opaque',
            'timestamp': lambda: f'timestamp("{text_of(value)}")', 'duration': lambda: f'duration("{int(value)}s")'}[kind]()


def answer(line, read_json):
    """The last line of the answer to a line of `sts cel`, and no more than `syntax` where it has a fault of the grammar."""
    asked = read_json(line)
    try:
        return 'value ' + shown(meaning(parsed(asked['expr']), value_of(asked.get('env', {}))))
    except NoExpression:
        return 'syntax'
    except EvalError as error:
        return f'error {error}'


def lines_of(inputs, answers):
    """Each line of the cases with the last line of its answer."""
    for line, told in zip(inputs, answers, strict=True):
        if line.startswith('lines\t'):
            asked = iter(unescaped(line.removeprefix('lines\t')).split(b'\n'))
            for one in unescaped(told.partition(' ')[2]).split(b'\n'):
                if one.startswith((b'syntax ', b'bad line', b'value ', b'error ')):
                    yield next(asked), one.decode(errors='surrogateescape')


def check():
    count = 0
    for line, told in lines_of(read('crates', 'case_runs', 'stdin').split('\n'), read('crates', 'case_runs', 'stdout').split('\n')):
        if told == 'bad line':
            continue
        mine = answer(line, read_json)
        count += 1
        if mine != (told if mine != 'syntax' else told.split(' ')[0]):
            sys.exit(f'{line}: {told} stands, and the model says {mine}')
    print(count, 'lines agree')


if __name__ == '__main__':
    if sys.argv[1:] != ['--check']:
        sys.exit(__doc__)
    sys.setrecursionlimit(10000)
    check()
