"""Access boundaries: a model of which are read and of what they allow, written from docs/FORMATS.md alone.

usage: python3 tools/boundaries.py --check    compares it with the `boundary` and `bound` cases of crates/case_runs
       python3 tools/boundaries.py < LINES    prints the answers of the model to lines of these calls
"""
import sys

from case_line import escaped, unescaped
from cel_types import read
from expressions import Moment, checked, holds
from forms import Fault, covers, has_form, read_json

MOST = 10
IN_ROLE = 'inRole:'
SEEN = {'resource': ('map', 'string'), 'request': ('map', 'timestamp')}


def sees(resource, at):
    """What the condition of a binding or of a rule sees of a check."""
    host, _, path = resource.removeprefix('//').partition('/')
    return {'resource': {'service': host, 'name': path}, 'request': {'time': Moment(at)}}


# Reading.

def read_boundary(value):
    """The rules of a boundary, each a resource, its roles and the condition's tree or none; or the first fault."""
    return read_rules(value.get('accessBoundaryRules') if isinstance(value, dict) else None)


def read_rules(rules):
    if not isinstance(rules, list) or not rules:
        raise Fault('Shape 0')
    if len(rules) > MOST:
        raise Fault(f'TooMany {MOST}')
    return [read_rule(rule if isinstance(rule, dict) else {}, number) for number, rule in enumerate(rules)]


def read_rule(rule, number):
    resource, names, condition = (rule.get(name) for name in ('availableResource', 'availablePermissions', 'availabilityCondition'))
    text = condition.get('expression') if isinstance(condition, dict) else None
    tree = checked(text, SEEN, 'bool') if isinstance(text, str) else None
    for cause, is_fit in [('Resource', has_form(resource, 'resource')), ('Permission', are_roles(names)),
                          ('Condition', 'availabilityCondition' not in rule or tree is not None)]:
        if not is_fit:
            raise Fault(f'{cause} {number}')
    return resource, [name.removeprefix(IN_ROLE) for name in names], tree


def are_roles(names):
    return isinstance(names, list) and 1 <= len(names) <= MOST and all(
        isinstance(name, str) and name.startswith(IN_ROLE) and has_form(name.removeprefix(IN_ROLE), 'role') for name in names)


def are_exact(rules):
    """Whether it is a list of rules as a payload has them, with these members alone."""
    try:
        read_rules(rules)
    except Fault:
        return False
    return all(set(rule) | {'availabilityCondition'} == {'availabilityCondition', 'availablePermissions', 'availableResource'}
               and set(rule.get('availabilityCondition', {'expression': None})) == {'expression'} for rule in rules)


def written(boundary):
    """The rules of a boundary that was read, as a payload has them."""
    made = []
    for rule in boundary['accessBoundaryRules']:
        condition = rule.get('availabilityCondition')
        kept = {} if condition is None else {'availabilityCondition': {'expression': condition['expression']}}
        made.append(dict(kept, availablePermissions=rule['availablePermissions'], availableResource=rule['availableResource']))
    return made


# Deciding.

def allows(roles, rules, permission, resource, at):
    """Whether some rule allows the permission on the resource, with these roles and their permissions."""
    return any(covers(upper, resource) and any(permission in roles.get(name, []) for name in names) and holds(condition, sees(resource, at))
               for upper, names, condition in rules)


# The cases.

def rules_text(value):
    """The rules in short, each in brackets: the resource, its roles, and the condition's text."""
    made, found = 'rules', read_boundary(value)
    for rule, (resource, names, condition) in zip(value['accessBoundaryRules'], found):
        text = ' if ' + rule['availabilityCondition']['expression'] if condition else ''
        made += f" [{' '.join([resource, *names])}{text}]"
    return made


def roles_of(text):
    """Roles that are put one after another, and their permissions."""
    roles = {}
    for put in text.split():
        role, _, permissions = put.partition('=')
        roles[role] = [one for one in permissions.split(',') if one]
        if not has_form(role, 'role') or not all(has_form(one, 'permission') for one in roles[role]):
            raise Fault('no name')
    return roles


def bound(roles, boundary, permission, resource, at):
    roles = roles_of(roles.decode())
    try:
        rules = read_boundary(read_json(boundary))
    except (ValueError, RecursionError, Fault):
        raise Fault('no boundary') from None
    permission, resource = permission.decode(), resource.decode()
    if not has_form(permission, 'permission') or not has_form(resource, 'resource'):
        raise Fault('no name')
    return 'yes' if allows(roles, rules, permission, resource, int(at)) else 'no'


def answer(line):
    call, *inputs = line.split('\t')
    inputs = [unescaped(one) for one in inputs]
    try:
        return escaped((rules_text(read_json(inputs[0])) if call == 'boundary' else bound(*inputs)).encode())
    except Fault as fault:
        return str(fault)
    except (ValueError, RecursionError):
        return 'no JSON'


def check():
    count = 0
    for line, told in zip(read('crates', 'case_runs', 'stdin').split('\n'), read('crates', 'case_runs', 'stdout').split('\n'), strict=True):
        if line.split('\t')[0] in ('boundary', 'bound'):
            count += 1
            if answer(line) != told:
                sys.exit(f'{line}: {told} stands, and the model says {answer(line)}')
    print(count, 'lines agree')


if __name__ == '__main__':
    if sys.argv[1:] not in ([], ['--check']):
        sys.exit(__doc__)
    sys.setrecursionlimit(10000)
    if sys.argv[1:]:
        check()
    else:
        for one in sys.stdin.read().splitlines():
            print(answer(one))
