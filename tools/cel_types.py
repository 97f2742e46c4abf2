"""Types of expressions: a model of the type line that `sts cel` gives, by the rules of docs/FORMATS.md.

usage: python3 tools/cel_types.py < LINES    the type line of each line of `sts cel`, whose expression has no fault of the grammar
       python3 tools/cel_types.py --write    puts type lines into the cases of crates/case_runs and makes docs/FUNCTIONS.md
       python3 tools/cel_types.py --check    compares them instead, and looks for each example among the cases
       python3 tools/cel_types.py --table    prints docs/FUNCTIONS.md
"""
import json
import os
import re
import sys

from case_line import escaped, unescaped

ROOT = os.path.dirname(os.path.dirname(os.path.abspath(__file__)))
RELATIONS = ('<', '<=', '>', '>=')
STRENGTHS = [('||',), ('&&',), RELATIONS + ('==', '!=', 'in'), ('+', '-'), ('*', '/', '%')]
MACROS = {('all', 2), ('exists', 2), ('exists_one', 2), ('filter', 2), ('map', 2), ('map', 3)}
LITERALS = {'true': 'bool', 'false': 'bool', 'null': 'null'}
TOKEN = re.compile(r'''(?P<blank>[ \t\n\f\r]|//[^\n\r]*)|(?P<text>r"[^"\n\r]*"|r'[^'\n\r]*'|"(?:[^"\\\n\r]|\\.)*"|'(?:[^'\\\n\r]|\\.)*')'''
                   r'|(?P<int>0x[0-9A-Fa-f]+|[0-9]+)|(?P<word>[A-Za-z_][A-Za-z_0-9]*)|(?P<sign>\|\||&&|[=!<>]=|[-+*/%<>?:!.,()\[\]{}])')

# The overload table: the style of a call, its name, the kinds of its arguments, the kind of its result, and an example.
MOMENT, SPAN = 'timestamp("2024-02-29T12:34:56Z")', 'duration("1h30m")'
ROWS = [
    ('operator', '!', 'bool', 'bool', '!true'),
    ('operator', '-', 'int', 'int', '-(7)'),
    ('operator', '+', 'int int', 'int', '1 + 2'),
    ('operator', '+', 'string string', 'string', '"a" + "b"'),
    ('operator', '+', 'list list', 'list', '[1] + [2]'),
    ('operator', '+', 'timestamp duration', 'timestamp', f'{MOMENT} + {SPAN}'),
    ('operator', '+', 'duration timestamp', 'timestamp', f'{SPAN} + {MOMENT}'),
    ('operator', '+', 'duration duration', 'duration', f'{SPAN} + {SPAN}'),
    ('operator', '-', 'int int', 'int', '7 - 2'),
    ('operator', '-', 'timestamp duration', 'timestamp', f'{MOMENT} - {SPAN}'),
    ('operator', '-', 'timestamp timestamp', 'duration', f'{MOMENT} - {MOMENT}'),
    ('operator', '-', 'duration duration', 'duration', f'{SPAN} - {SPAN}'),
    ('operator', '*', 'int int', 'int', '3 * 2'),
    ('operator', '/', 'int int', 'int', '7 / 2'),
    ('operator', '%', 'int int', 'int', '7 % 2'),
    *[('operator', sign, f'{kind} {kind}', 'bool', f'{one} {sign} {other}') for sign in RELATIONS for kind, one, other in [
        ('bool', 'false', 'true'), ('int', '1', '2'), ('string', '"a"', '"b"'), ('timestamp', MOMENT, MOMENT), ('duration', SPAN, SPAN)]],
    ('function', 'size', 'string', 'int', 'size("abc")'),
    ('function', 'size', 'list', 'int', 'size([1, 2])'),
    ('function', 'size', 'map', 'int', 'size({"a": 1})'),
    ('member', 'size', 'string', 'int', '"abc".size()'),
    ('member', 'size', 'list', 'int', '[1, 2].size()'),
    ('member', 'size', 'map', 'int', '{"a": 1}.size()'),
    ('member', 'contains', 'string string', 'bool', '"abc".contains("b")'),
    ('member', 'startsWith', 'string string', 'bool', '"abc".startsWith("a")'),
    ('member', 'endsWith', 'string string', 'bool', '"abc".endsWith("c")'),
    ('member', 'extract', 'string string', 'string', '"a/b".extract("a/{x}")'),
    ('member', 'split', 'string string', 'list', '"a,b".split(",")'),
    ('member', 'join', 'list string', 'string', '["a", "b"].join(",")'),
    ('member', 'lowerAscii', 'string', 'string', '"Ab".lowerAscii()'),
    ('function', 'int', 'int', 'int', 'int(7)'),
    ('function', 'int', 'string', 'int', 'int("7")'),
    ('function', 'int', 'timestamp', 'int', 'int(timestamp("1970-01-01T00:00:01Z"))'),
    ('function', 'string', 'string', 'string', 'string("a")'),
    ('function', 'string', 'int', 'string', 'string(7)'),
    ('function', 'string', 'bool', 'string', 'string(true)'),
    ('function', 'string', 'timestamp', 'string', f'string({MOMENT})'),
    ('function', 'timestamp', 'string', 'timestamp', MOMENT),
    ('function', 'timestamp', 'timestamp', 'timestamp', f'timestamp({MOMENT})'),
    ('function', 'duration', 'string', 'duration', SPAN),
    ('function', 'duration', 'duration', 'duration', f'duration({SPAN})'),
    *[('member', f'get{part}', 'timestamp', 'int', f'{MOMENT}.get{part}()') for part in (
        'FullYear', 'Month', 'DayOfMonth', 'DayOfYear', 'Date', 'DayOfWeek', 'Hours', 'Minutes', 'Seconds')],
]
# What is no call: its form, its operands, its result, and an example.
FORMS = [
    ('a && b', 'bool, bool', 'bool', 'true && false'),
    ('a || b', 'bool, bool', 'bool', '1 / 0 == 1 || true'),
    ('c ? a : b', 'bool, two that fit', 'theirs', 'true ? 1 : 1 / 0'),
    ('a == b', 'two that fit', 'bool', '[1, [2]] == [1, [2]]'),
    ('a != b', 'two that fit', 'bool', '{"a": 1} != {"b": 1}'),
    ('a in l', 'any, list', 'bool', '"b" in [1, "b"]'),
    ('a in m', 'string, map', 'bool', '"a" in {"a": 1}'),
    ('[a, b]', 'any', 'list(T)', '[1, 2]'),
    ('{k: a}', 'string, any', 'map(T)', '{"a": 1, "b": 2}'),
    ('m.field', 'map(T)', 'T', '{"a": {"b": "c"}}.a.b'),
    ('m[k]', 'map(T), string', 'T', '{"a": 1}["a"]'),
    ('l[i]', 'list(T), int', 'T', '[1, 2][0]'),
    ('has(m.field)', 'map', 'bool', 'has({"a": 1}.b)'),
    ('e.all(x, p)', 'list or map, bool', 'bool', '[1, 2].all(x, x > 0)'),
    ('e.exists(x, p)', 'list or map, bool', 'bool', '[1, 2].exists(x, x > 1)'),
    ('e.exists_one(x, p)', 'list or map, bool', 'bool', '[1, 2, 3].exists_one(x, x == 2)'),
    ('l.filter(x, p)', 'list(T), bool', 'list(T)', '[1, 2, 3].filter(x, x > 1)'),
    ('m.filter(x, p)', 'map, bool', 'list(string)', '{"b": 1, "a": 2}.filter(k, k == "b")'),
    ('e.map(x, v)', 'list or map, T', 'list(T)', '[1, 2].map(x, x * 2)'),
    ('e.map(x, p, v)', 'list or map, bool, T', 'list(T)', '[1, 2, 3].map(x, x > 1, x * 2)'),
]
TABLE_HEAD = """# Functions

What mappings and conditions can say: the functions and operators with their types, then the other forms. docs/FORMATS.md has what
each means, the names that an expression sees, its limits and its errors. Both tables are made by `tools/cel_types.py`, and each
example is a case of `crates/case_runs`, with what it gives there; `./sts cel` tells the same of any other.

A number of JSON that is no integer of 64 bits, as `1.5`, `1e3` or `-0`, is opaque. An operator other than `&&`, `||` and `?:`, and a
function other than `size`, has the error NoOverload on an operand that is opaque or holds such a value anywhere inside. So
`"sub" in assertion` errs as soon as any claim is such a number, and `has(assertion.sub)` doesn't; nor does `assertion.sub == "x"`,
whose operand is the one claim. In a condition an error refuses, or grants nothing.

A call takes the rows of its name, style and number of arguments that fit; where they differ in their result it is `dyn`. A
member's first argument is what stands before the dot. `+` of lists joins the types of their items, `split` gives `list(string)`, and
`join` takes a list whose items fit `string`. The case `overloads` of `crates/case_runs` compares the rows with the constant that the
evaluator and the type checker read.

| Function | Arguments | Result | Example | It gives |
|---|---|---|---|---|
"""
FORMS_HEAD = """
The other forms; x is a name that stands for each item of a list, or each key of a map.

| Form | Operands | Result | Example | It gives |
|---|---|---|---|---|
"""
SPELLING = r"""
## How an expression is written

- Between tokens stand spaces, tabs, line breaks and form feeds, and comments from `//` to the end of their line.
- An integer is digits, or `0x` and hexadecimal digits, from -9223372036854775808 to 9223372036854775807. There are no fractions.
- A text stands in `"` or `'` on one line, with the escapes `\\`, `\'`, `\"`, `\n`, `\r`, `\t` and `\uHHHH` of a code point that is no
  surrogate; with an `r` before the quote it has no escapes.
- The other literals are `true`, `false`, `null`, lists `[a, b]` and maps `{"k": a}`; a comma may stand behind the last part of both.
- A name is a letter or `_`, and then letters, digits and `_`, but none of `true`, `false`, `null`, `in`, nor of `as`, `break`, `const`,
  `continue`, `else`, `for`, `function`, `if`, `import`, `let`, `loop`, `namespace`, `package`, `return`, `var`, `void`, `while`. Behind
  a dot the latter are good.
- From the weakest to the strongest: `c ? a : b`; `||`; `&&`; `<`, `<=`, `>`, `>=`, `==`, `!=`, `in`; `+`, `-`; `*`, `/`, `%`; `!` or `-`
  before their operand, once or more; `.field`, `.call(..)` and `[..]` behind it. Those of a level go from the left; the last part of
  `? :` may be another, the others want brackets for it.
"""


class Fault(Exception):
    """The number of the node at fault and the rule that it breaks."""


class Node:
    """A node of a tree: its form, the word that it carries (an operator, a name, the type of a literal), and its children."""

    def __init__(self, form, word, *children):
        self.form, self.word, self.children = form, word, children

    def number_from(self, number):
        """Numbers the nodes in pre-order, and tells the next number."""
        self.number = number
        number += 1
        for child in self.children:
            number = child.number_from(number)
        return number


# Reading.

class Parser:
    """Reads an expression that has no fault of the grammar."""

    def __init__(self, text):
        self.tokens, at = [], 0
        while at < len(text):
            found = TOKEN.match(text, at)
            if not found:
                raise SyntaxError(text)
            if found.lastgroup != 'blank':
                self.tokens.append((found.lastgroup, found.group()))
            at = found.end()
        self.tokens.append(('end', ''))

    def next(self):
        return self.tokens[0][1]

    def take(self):
        return self.tokens.pop(0)[1]

    def takes(self, sign):
        return self.next() == sign and self.take() == sign

    def need(self, sign):
        if not self.takes(sign):
            raise SyntaxError(f'{sign} is wanted where {self.next()} stands')

    def whole(self):
        tree = self.expression()
        self.need('')
        return tree

    def expression(self):
        first = self.binary(0)
        if not self.takes('?'):
            return first
        second = self.binary(0)
        self.need(':')
        return Node('choice', None, first, second, self.expression())

    def binary(self, level):
        if level == len(STRENGTHS):
            return self.unary()
        left = self.binary(level + 1)
        while self.next() in STRENGTHS[level]:
            left = Node('binary', self.take(), left, self.binary(level + 1))
        return left

    def unary(self):
        sign = self.next()
        if sign not in ('!', '-'):
            return self.member()
        signs = 0
        while self.takes(sign):
            signs += 1
        # the last `-` belongs to an integer that stands alone
        if sign == '-' and self.tokens[0][0] == 'int' and self.tokens[1][1] not in ('.', '['):
            signs -= 1
        tree = self.member()
        for _ in range(signs):
            tree = Node('operator', sign, tree)
        return tree

    def member(self):
        tree = self.primary()
        while self.next() in ('.', '['):
            if self.takes('['):
                tree = Node('index', None, tree, self.expression())
                self.need(']')
            else:
                self.need('.')
                tree = self.selection(tree, self.take())
        return tree

    def selection(self, tree, name):
        if not self.takes('('):
            return Node('select', name, tree)
        arguments = self.several(')', self.expression)
        if (name, len(arguments)) in MACROS:
            return Node('macro', (name, arguments[0].word), tree, *arguments[1:])
        return Node('member', name, tree, *arguments)

    def primary(self):
        kind, word = self.tokens.pop(0)
        if kind in ('int', 'text'):
            return Node('literal', 'int' if kind == 'int' else 'string')
        if word in LITERALS:
            return Node('literal', LITERALS[word])
        if kind == 'word':
            return self.named(word)
        if word == '(':
            tree = self.expression()
            self.need(')')
            return tree
        if word == '[':
            return Node('list', None, *self.several(']', self.expression))
        if word == '{':
            return Node('map', None, *[part for pair in self.several('}', self.pair) for part in pair])
        raise SyntaxError(word)

    def named(self, word):
        if not self.takes('('):
            return Node('name', word)
        arguments = self.several(')', self.expression)
        if word == 'has' and len(arguments) == 1:
            return Node('has', arguments[0].word, *arguments[0].children)
        return Node('function', word, *arguments)

    def pair(self):
        key = self.expression()
        self.need(':')
        return key, self.expression()

    def several(self, end, part):
        found = []
        while not self.takes(end):
            found.append(part())
            if self.next() != end:
                self.need(',')
        return found


# Types: a word, or `list` or `map` with the type of its parts.

def fits(one, other):
    if isinstance(one, tuple) and isinstance(other, tuple):
        return one[0] == other[0] and fits(one[1], other[1])
    return one == other or 'dyn' in (one, other)


def join(types):
    return types[0] if types and all(one == types[0] for one in types) else 'dyn'


def kind_of(one):
    return one[0] if isinstance(one, tuple) else one


def part_of(one):
    """The type of the parts of a list or a map."""
    return one[1] if isinstance(one, tuple) else 'dyn'


def shown(one):
    return f'{one[0]}({shown(one[1])})' if isinstance(one, tuple) else one


# The rules: each gives the type of a node whose parts have these types, or none where they don't fit.

def call_type(style, name, types):
    """The type of a call, by the rows that fit."""
    rows = [(kinds.split(), result) for row_style, row_name, kinds, result, _ in ROWS if (row_style, row_name) == (style, name)]
    results = [result for kinds, result in rows if len(kinds) == len(types) and all(map(fits, map(kind_of, types), kinds))]
    if not results or name == 'join' and not fits(part_of(types[0]), 'string'):
        return None
    if join(results) == 'list':
        return 'list', 'string' if name == 'split' else join([part_of(one) for one in types])
    return join(results)


def binary_type(sign, left, right):
    if sign in ('&&', '||'):
        return 'bool' if fits(left, 'bool') and fits(right, 'bool') else None
    if sign in ('==', '!='):
        return 'bool' if fits(left, right) else None
    if sign == 'in':
        return 'bool' if kind_of(right) in ('list', 'dyn') or kind_of(right) == 'map' and fits(left, 'string') else None
    return call_type('operator', sign, [left, right])


def index_type(whole, index):
    wanted = {'list': ['int'], 'map': ['string'], 'dyn': ['int', 'string']}.get(kind_of(whole), [])
    return part_of(whole) if any(fits(index, one) for one in wanted) else None


def choice_type(condition, first, second):
    return join([first, second]) if fits(condition, 'bool') and fits(first, second) else None


def map_type(types):
    return ('map', join(types[1::2])) if all(fits(key, 'string') for key in types[::2]) else None


def selection_type(whole):
    return part_of(whole) if kind_of(whole) in ('map', 'dyn') else None


def type_by(form, word, types):
    """The type of a node that is no name and no macro, from those of its children."""
    if form == 'literal':
        return word
    if form == 'list':
        return 'list', join(types)
    if form == 'map':
        return map_type(types)
    if form == 'select':
        return selection_type(*types)
    if form == 'has':
        return selection_type(*types) and 'bool'
    if form == 'index':
        return index_type(*types)
    if form == 'choice':
        return choice_type(*types)
    return binary_type(word, *types) if form == 'binary' else call_type(form, word, types)


def type_of(node, names):
    """The type of a tree; names have these types. The children are looked at before their parent."""
    if node.form == 'name':
        if node.word not in names:
            raise Fault(node.number, 'T1')
        return names[node.word]
    if node.form == 'macro':
        return macro_type(node, names)
    types = [type_of(child, names) for child in node.children]
    if node.form in ('function', 'member') and not any(row[:2] == (node.form, node.word) for row in ROWS):
        raise Fault(node.number, 'T2')
    return needed(node, type_by(node.form, node.word, types))


def macro_type(node, names):
    name, variable = node.word
    over = type_of(node.children[0], names)
    variables = {'list': part_of(over), 'map': 'string', 'dyn': 'dyn'}
    of_variable = needed(node, variables.get(kind_of(over)))
    *tests, last = [type_of(child, {**names, variable: of_variable}) for child in node.children[1:]]
    if name != 'map':
        tests.append(last)
    if not all(fits(test, 'bool') for test in tests):
        raise Fault(node.number, 'T3')
    return {'filter': ('list', of_variable), 'map': ('list', last)}.get(name, 'bool')


def needed(node, found):
    if found is None:
        raise Fault(node.number, 'T3')
    return found


# Lines and cases.

def type_line(line):
    """The type line for a line of `sts cel` whose expression has no fault of the grammar."""
    asked = json.loads(line)
    tree = Parser(asked['expr']).whole()
    tree.number_from(0)
    try:
        return 'type ' + shown(type_of(tree, dict.fromkeys(asked.get('env', {}), 'dyn')))
    except Fault as fault:
        return 'type fault {} {}'.format(*fault.args)


def with_types(line, answers):
    """The answers of a case of `lines`, with a type line behind each tree."""
    end, _, text = answers.partition(' ')
    asked, made = iter(unescaped(line).split(b'\n')), []
    for answer in unescaped(text).split(b'\n'):
        if answer.startswith((b'tree ', b'syntax ', b'bad line')):
            answered = next(asked)
        if not answer.startswith(b'type '):
            made.append(answer)
        if answer.startswith(b'tree '):
            made.append(type_line(answered).encode())
    return end + ' ' + escaped(b'\n'.join(made))


def read(*names):
    with open(os.path.join(ROOT, *names), newline='') as source:
        return source.read()


def cases():
    """The inputs of the cases, and their answers with the type lines that the model gives."""
    inputs = read('crates', 'case_runs', 'stdin').split('\n')
    answers = read('crates', 'case_runs', 'stdout').split('\n')
    made = [answer_of(line, answer) for line, answer in zip(inputs, answers, strict=True)]
    return inputs, '\n'.join(made)


def table():
    calls = {'operator': '{}', 'function': '{}(..)', 'member': 't.{}(..)'}
    rows = [(calls[style].format(name), kinds.replace(' ', ', '), result, example) for style, name, kinds, result, example in ROWS]
    inputs, answers = cases()
    gives = dict(zip(inputs, answers.split('\n'), strict=True))
    return TABLE_HEAD + shown_rows(rows, gives) + FORMS_HEAD + shown_rows(FORMS, gives) + SPELLING


def shown_rows(rows, gives):
    """The rows of a table, each with what its example gives in the cases."""
    made = ''
    for form, kinds, result, example in rows:
        value = unescaped(gives.get(case_of(example), '')).decode().rstrip('\n').rpartition('\nvalue ')[2]
        made += f'| `{form}` | {kinds} | {result} | `{example}` | `{value}` |\n'.replace('||', '\\|\\|')
    return made


def overloads():
    """The rows as the constant has them: 100 times the function's number, plus 10 times the first kind, plus the second, and the kind of the result."""
    kinds = ['', 'null', 'bool', 'int', 'string', 'list', 'map', 'timestamp', 'duration']
    numbers, made = {}, {}
    for style, name, arguments, result, _ in ROWS:
        first, second = (arguments.split() + [''])[:2]
        number = numbers.setdefault('unary -' if style == 'operator' and name == '-' and not second else name, len(numbers) + 1)
        made[100 * number + 10 * kinds.index(first) + kinds.index(second)] = kinds.index(result)
    return 'rows' + ''.join(f' {key}:{kind}' for key, kind in made.items())


def answer_of(line, answer):
    """The answer of a case, where the model knows it."""
    if line == 'overloads':
        return overloads()
    return with_types(line.removeprefix('lines\t'), answer) if line.startswith('lines\t') else answer


def case_of(example):
    return 'lines\t' + escaped(json.dumps({'expr': example}, separators=(',', ':')).encode())


def missing(inputs):
    """The examples that are no case."""
    known = set(inputs)
    return [row[-1] for row in ROWS + FORMS if case_of(row[-1]) not in known]


def keep(word):
    """Writes what is made by the model, or compares it."""
    inputs, answers = cases()
    for name, made in ((('crates', 'case_runs', 'stdout'), answers), (('docs', 'FUNCTIONS.md'), table())):
        if word == '--write':
            with open(os.path.join(ROOT, *name), 'w', newline='') as sink:
                sink.write(made)
        elif read(*name) != made:
            sys.exit(f'{name[-1]} differs')
    if missing(inputs):
        sys.exit('no case has ' + ', '.join(missing(inputs)))


def main(word):
    if word == '--table':
        print(table(), end='')
    elif word:
        keep(word)
    else:
        for line in sys.stdin.buffer.read().removesuffix(b'\n').split(b'\n'):
            print(type_line(line))


if __name__ == '__main__':
    if sys.argv[1:] not in ([], ['--write'], ['--check'], ['--table']):
        sys.exit(__doc__)
    sys.setrecursionlimit(10000)
    main(sys.argv[1] if len(sys.argv) > 1 else None)
