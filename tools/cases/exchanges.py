"""The form of an exchange, rule by rule: its parameters, scope and options; and the boundaries that a token carries."""
from model import ACCESS, EVERY, EXCHANGE, OAUTH
from signing import AT, compact, form

from . import requests
from .requests import (ANY, BUCKET, BUILDER, CREATOR, FULL, GET, ID_TOKEN, NAME, OTHER, OUTSIDE, PATH, VIEWER, access, actors, add, 
                       check, exchange, facts, introspect, latest, offers, policy, puts, rule, subject, where, without)
from .first import SIXTEEN, SORTED
from .providers import NO_TEXT

# The form of an exchange, rule by rule: its parameters, each there once at most and with one of its values.
JWT = OAUTH + 'token-type:jwt'
SINGLE = {'grant_type': EXCHANGE, 'subject_token': SORTED, 'subject_token_type': JWT, 'actor_token': 'x', 'actor_token_type': ACCESS,
          'requested_token_type': ACCESS, 'scope': EVERY, 'options': '{}'}


def asked(want, tail='', **changes):
    exchange(want, SORTED, tail=tail, **changes)


for tail in ('colour=%EF%BF%BD', 'colour=\ufffd', 'colour=x%EF%BF%BDx', '%EF%BF%BD=x', '%FF', '=%FF', 'colour=%E2%82', 'colour=%EF%BF',
             'colour=%ED%A0%80', 'colour=%C0%80', 'colour=%F4%90%80%80', 'colour=x%80x', 'scope=%FF', 'options=%FF', 'actor_token=%FF'):
    asked('E1', '&' + tail)
for tail in ('colour=%EF%BF%BE', 'colour=%', 'colour=%F', 'colour=%G0', 'colour=%00', '%F0%9F%98%80=%F4%8F%BF%BF', '&', '=', '=x'):
    asked('issued', '&' + tail)
for name, value in SINGLE.items():
    asked('E2', **{name: [value, value]})
    asked('E2', **{name: ['x', value]})
    asked('issued', **{name: ['', '' if name.startswith('actor') else value, '']})
asked('E2', '&sc%6Fpe=x', scope=EVERY)
asked('issued', ''.join('&' + name for name in SINGLE))
asked('issued', colour=['red', 'red'], Scope='none', SCOPE='none')
asked('E10', resource=['x', 'x'])
asked('E14', audience=[NAME, NAME])
asked('issued', audience=['', NAME, ''])
for name, code in [('grant_type', 'E3'), ('subject_token', 'E5'), ('subject_token_type', 'E6')]:
    asked(code, **{name: ''})
    asked(code, **{name: None, name.upper(): SINGLE[name]})
for grant in (EXCHANGE + ' ', ' ' + EXCHANGE, EXCHANGE.upper(), EXCHANGE[:-1], EXCHANGE + '/', 'token-exchange', 'password', 'x', OAUTH, ACCESS):
    asked('E4', grant_type=grant)
for kind in ('jwt', 'access_token', OAUTH + 'token-type:refresh_token', OAUTH + 'token-type:saml1', OAUTH + 'token-type:', JWT.upper(), ' ' + JWT,
             ACCESS + ' ', ACCESS[:-1]):
    asked('E6', subject_token_type=kind)
    asked('E7', requested_token_type=kind)
    asked('E9', actor_token='x', actor_token_type=kind)
for kind in (JWT, ID_TOKEN):
    asked('issued', subject_token_type=kind)
    asked('E7', requested_token_type=kind)
    asked('E9', actor_token='x', actor_token_type=kind)
asked('issued', requested_token_type=ACCESS)
for kind in (JWT, ID_TOKEN, ACCESS, 'x'):
    asked('E8', actor_token_type=kind)
    asked('E8', actor_token_type=kind, subject_token_type=ACCESS)
for token in ('x', SORTED, ' '):
    asked('E8', actor_token=token)
    asked('E8', actor_token=token, actor_token_type='', subject_token_type=ACCESS)
for resource in ('x', BUCKET, NAME, ' '):
    asked('E10', resource=resource)
    asked('E10', resource=resource, subject_token_type=ACCESS, audience=None)

# The words of a scope: those of the reply, of the token and of its checks.
CREATE, EDITOR = 'storage.objects.create', 'roles/storage.objectAdmin'
EVERYBODY = f'principalSet://{PATH}/*'
LONGEST = 'w' * 128
puts({'kind': 'role', 'role': EDITOR, 'permissions': [GET, CREATE]})
puts(policy((EDITOR, [EVERYBODY], None)))
puts({'kind': 'scope', 'scope': 'read', 'permissions': [GET]})
puts({'kind': 'scope', 'scope': 'write', 'permissions': [CREATE]})
for word in [*SIXTEEN.split(' '), LONGEST]:
    puts({'kind': 'scope', 'scope': word, 'permissions': []})


def scoped(want, scope, *checks_of):
    """An exchange for these words; then checks of the token, each a reply and a permission."""
    exchange(want, SORTED, scope=scope)
    for reply, permission in checks_of:
        check(reply, latest(scope=scope), permission=permission)


for scope in ('read', 'write', 'read write', 'read read', 'a read', 'read ' + EVERY, SIXTEEN, SIXTEEN[2:] + ' read', ' '.join(['read'] * 16),
              LONGEST, ' '.join([LONGEST] * 16)):
    scoped('issued', scope)
    introspect('active', latest(scope=scope))
for scope in (SIXTEEN + ' read', SIXTEEN + ' a', SIXTEEN + ' none', SIXTEEN + ' ', ' '.join(['read'] * 17), 'read  write', ' read', 'read ', ' ',
              '  ', 'read\twrite', 'read\nwrite', 'read\u00a0write', 'read,write', 'none', 'read none', 'none read', 'a b c none', 'Read', 'rea',
              'reads', '"read"', 'read\\', 'r\u00e9ad', 'read\u0000', LONGEST + 'w', LONGEST[1:], 'q', '*', '{}'):
    scoped('E11', scope)
    exchange('E11', SORTED, scope=scope, subject_token_type=ACCESS, audience=None)
for tail, scope in (('read+write', 'read write'), ('read%20write', 'read write'), ('r%65ad', 'read')):
    asked('issued', '&scope=' + tail)
    introspect('active', latest(scope=scope))
for tail in ('read++write', 'read%09write', 'read%2Bwrite', '+read', '%20', 'read%25'):
    asked('E11', '&scope=' + tail)
exchange('E25', subject(dict(FULL, may_act=actors(2, 'a' * 1024))), scope=' '.join([LONGEST] * 16))
exchange('issued', subject(dict(FULL, may_act=actors(2, 'a' * 1024))), scope=' '.join([LONGEST] * 8))
scoped('issued', 'read', ('allowed', GET), ('G7 0', CREATE))
scoped('issued', 'write', ('G7 0', GET), ('allowed', CREATE))
scoped('issued', 'a', ('G7 0', GET), ('G7 0', CREATE))
scoped('issued', 'a write b', ('G7 0', GET), ('allowed', CREATE))
scoped('issued', 'read write', ('allowed', GET), ('allowed', CREATE), ('G7 0', 'a.b.c'))
READ_WRITE = latest(scope='read write')
for permissions, want in [([], 'G7 0'), ([CREATE], 'G7 0'), ('*', 'allowed'), ([GET], 'allowed')]:
    puts({'kind': 'scope', 'scope': 'read', 'permissions': permissions})
    check(want, READ_WRITE)
    check('allowed', READ_WRITE, permission=CREATE)
scoped('E11', 'read q')
puts({'kind': 'scope', 'scope': ANY, 'permissions': '*'})
scoped('issued', 'read q', ('allowed', CREATE))

# The options of an exchange: a JSON object, and the access boundary that it may have.
PARENT, SIBLING, PUT_LATER = '//storage.googleapis.com/projects/_/buckets', BUCKET[:-1] + 'b', 'roles/put.later'
exchange('issued', SORTED)
STANDS = latest()


def narrows(want, options, **changes):
    requests.narrows(want, options, STANDS, **changes)


def bounds(want, *rules):
    requests.bounds(want, *rules, token=STANDS)



ONE = compact({'accessBoundary': {'accessBoundaryRules': [rule()]}})
for options in ('[]', '"a"', 'null', '1', 'true', '{', '}', '{}x', '{}{}', 'x', ' ', '{"a"}', '{"a":1,}', "{'a':1}", '{"a":01}', '{"a":NaN}',
                '{"a":1e400}', '{"a":' + '1' * 400 + '}', '{"a":"\\ud800"}', '{"a":"\t"}', '{"a":"\\x"}', '\ufeff{}', '[{}]', '[' + ONE + ']',
                ONE[:-1], ONE + '}', '{"a":' + '[' * 127 + ']' * 127 + '}'):
    asked('E12 Json', options=options)
    narrows('E12 Json', options)
for options in ('{}', ' { } ', '\n{"a":1}\t', '{"a":-0,"b":1.5e300,"c":18446744073709551616}', '{"a":' + '[' * 126 + ']' * 126 + '}',
                '{"accessboundary":1}', '{"AccessBoundary":null}', '{"accessBoundaryRules":1}', '{"options":' + ONE + '}'):
    asked('issued', options=options)
    narrows('issued', options)
for options in (ONE, ' ' + ONE + '\n', ONE[:-1] + ',"more":null}', '{"accessBoundary":1,' + ONE[1:], '{"\\u0061ccessBoundary' + ONE[16:],
                ONE.replace('"accessBoundaryRules"', '"more":7,"accessBoundaryRules":7,"accessBoundaryRules"')):
    asked('E13', options=options)
    narrows('issued', options)
narrows('E12 Shape 0', ONE[:-1] + ',"accessBoundary":{}}')
for boundary in (None, 7, True, 'x', '', [], [rule()], {}, {'rules': [rule()]}, {'AccessBoundaryRules': [rule()]}):
    asked('E12 Shape 0', options=compact({'accessBoundary': boundary}))
    narrows('E12 Shape 0', {'accessBoundary': boundary})
for rules in (None, 7, 'x', {}, {'0': rule()}, [], True):
    narrows('E12 Shape 0', {'accessBoundary': {'accessBoundaryRules': rules}})
bounds('issued', *[rule()] * 10)
for rules in ([rule()] * 11, [None] * 11, [rule()] * 10 + [None], [rule('roles/none')] * 11, [rule()] * 100):
    bounds('E12 TooMany 10', *rules)
for number in (0, 1, 9):
    front, back = [rule()] * number, [rule()] * (9 - number)
    for one in (None, 7, 'x', True, [], [rule()], {}, without('availableResource'), rule(at=None)):
        bounds(f'E12 Resource {number}', *front, one, *back)
    for one in (without('availablePermissions'), offers(None), offers([])):
        bounds(f'E12 Permission {number}', *front, one, *back)
    for one in (where(None), rule(text='1 +'), rule(text='1')):
        bounds(f'E12 Condition {number}', *front, one, *back)
    bounds(f'E12 Role {number}', *front, rule('roles/none'), *back)
    bounds('issued', *front, dict(rule(text='true'), more=None, availableresource=7), *back)

# A rule of a boundary, member by member, at its edges.
NO_RESOURCES = ('', '//', '/', BUCKET[1:], BUCKET[2:], BUCKET + '/', BUCKET + '//x', '//Storage.googleapis.com', BUCKET + '/"', BUCKET + '/a b',
                BUCKET + '/\\', BUCKET + '/\u00e9', 'https:' + BUCKET, '//h/' + 'a' * 1021, 7, [BUCKET], {'name': BUCKET}, True)
NO_ROLES = ('inRole:' + VIEWER, {}, {'inRole:' + VIEWER: 1}, 7, True, ['inRole:' + VIEWER] * 11, [VIEWER], ['inRole:'], ['inRole:roles/'], [''],
            ['inrole:' + VIEWER], ['InRole:' + VIEWER], ['inRole: ' + VIEWER], [' inRole:' + VIEWER], ['inRole:' + VIEWER + ' '],
            ['inRole:inRole:' + VIEWER], ['inRole:projects/p/roles/x'], ['inRole:roles/a-b'], ['inRole:roles/\u00e9'],
            ['inRole:roles/' + 'r' * 65], [7], [None], [['inRole:' + VIEWER]], ['inRole:' + VIEWER, GET], ['inRole:' + VIEWER, None], [GET], ['*'])
NO_CONDITIONS = (None, 7, True, 'true', [], ['true'], {}, {'expression': None}, {'expression': 7}, {'expression': True}, {'expression': ['true']},
                 {'expression': {'expression': 'true'}}, {'Expression': 'true'}, {'title': 'x'})
NO_CONDITION_TEXT = (*NO_TEXT, '1', '"true"', 'null', 'resource', 'resource.name', 'request.time', 'resource.name == 1', 'request.time < 5',
                     'assertion.sub == "a"', 'google.subject == "a"', 'attribute.a == "a"', 'resource == request', '[true]', 'true ? 1 : 2',
                     'true' + ' ' * 4093, '!' * 512 + 'true', '(' * 33 + 'true' + ')' * 33, '[1].all(x, [x].all(y, [y].all(z, z == 1)))',
                     'api.getAttribute("a", []) == []', 'resource.type.x')
for resource in NO_RESOURCES:
    bounds('E12 Resource 0', rule(at=resource))
for resource in ('//h', '//h/' + 'a' * 1020, BUCKET + '/objects/{x}*', '//iam.googleapis.com/projects/-/serviceAccounts/' + BUILDER, '//0.-/~'):
    bounds('issued', rule(at=resource))
for names in NO_ROLES:
    bounds('E12 Permission 0', offers(names))
bounds('issued', rule(*[VIEWER] * 10))
bounds('issued', rule(VIEWER, EDITOR, CREATOR, VIEWER))
bounds('E12 Role 0', rule('roles/' + 'r' * 64))
for condition in NO_CONDITIONS:
    bounds('E12 Condition 0', where(condition))
bounds('issued', where({'title': 'x', 'expression': 'true', 'more': None}))
for text in NO_CONDITION_TEXT:
    bounds('E12 Condition 0', rule(text=text))
for text in ('true', 'false', '1 / 0 == 1', 'resource.type == "a"', 'request.date < request.time', 'resource.name.startsWith("projects/_/")',
             'resource.service == "storage.googleapis.com" && request.time < timestamp("2023-11-14T22:15:00Z")', 'true' + ' ' * 4092,
             '!' * 511 + 'true', '(' * 32 + 'true' + ')' * 32, '[1].all(x, [x].all(y, y == 1))', 'true // a', "resource.name == r'\\'",
             '"\u00e9\U0001f600" in resource'):
    bounds('issued', rule(text=text))

# Several at fault in one boundary: its count, the first rule with a fault of its form, its members in their order, and then the roles.
bounds('E12 Resource 0', dict(rule(text='1 +', at='x'), availablePermissions=[]))
bounds('E12 Resource 0', rule(text='1 +', at='x'))
bounds('E12 Permission 0', dict(rule(text='1 +'), availablePermissions=[]))
for first, one in [('Resource', without('availableResource')), ('Permission', without('availablePermissions')), ('Condition', rule(text='1 +'))]:
    for other in (without('availableResource'), without('availablePermissions'), rule(text='1 +'), None, rule('roles/none')):
        bounds(f'E12 {first} 0', one, other)
        bounds(f'E12 {first} 1', rule(), one, other)
    bounds(f'E12 {first} 1', rule('roles/none'), one)
    bounds(f'E12 {first} 2', rule('roles/none'), rule(), one)
for roles in (['roles/none'], ['roles/none', VIEWER], [VIEWER, 'roles/none'], [VIEWER] * 9 + ['roles/none']):
    bounds('E12 Role 0', rule(*roles), rule('roles/none'))
    bounds('E12 Role 1', rule(VIEWER, EDITOR), rule(*roles), rule('roles/none'))
bounds('E12 Role 1', rule(), rule(PUT_LATER))
puts({'kind': 'role', 'role': PUT_LATER, 'permissions': []})
bounds('issued', rule(), rule(PUT_LATER))
bounds('E12 Role 0', rule('roles/Put.Later'))

# A boundary, an actor, and a subject token from outside: two of them are too many.
ACTOR = {'actor_token': STANDS, 'actor_token_type': ACCESS}
for kind in (JWT, ID_TOKEN):
    asked('E13', subject_token_type=kind, options=ONE)
    asked('E13', subject_token_type=kind, **ACTOR)
    asked('E13', subject_token_type=kind, options=ONE, **ACTOR)
    asked('E13', subject_token_type=kind, options='{}', **ACTOR)
narrows('E13', ONE, **ACTOR)
narrows('E23', '{}', **ACTOR)
narrows('E23', '', **ACTOR)
narrows('E14', '', audience=NAME, **ACTOR)
narrows('E14', '', audience=[NAME, 'x'], **ACTOR)
narrows('E22', '', actor_token='a.b', actor_token_type=ACCESS)
narrows('E23', '', scope='read', **ACTOR)
narrows('issued', ONE, actor_token='', actor_token_type='')
narrows('issued', ONE, requested_token_type=ACCESS, scope='read write')

# Two at fault: the first in the order of the rules counts.
UNKNOWN_ROLE = compact({'accessBoundary': {'accessBoundaryRules': [rule('roles/none')]}})
IN_ORDER = [
    ('E1', {'colour': '\ufffd'}), ('E2', {'requested_token_type': [ACCESS, ACCESS]}), ('E3', {'grant_type': None}), ('E4', {'grant_type': 'x'}),
    ('E5', {'subject_token': None}), ('E6', {'subject_token_type': None}), ('E7', {'requested_token_type': JWT}),
    ('E8', {'actor_token_type': JWT}), ('E9', {'actor_token': 'x', 'actor_token_type': JWT}), ('E10', {'resource': 'x'}),
    ('E11', {'scope': 'none'}), ('E12 Json', {'options': '{'}), ('E12 Shape 0', {'options': '{"accessBoundary":[]}'}),
    ('E12 Role 0', {'options': UNKNOWN_ROLE}), ('E13', ACTOR), ('E13', {'options': ONE}), ('E14', {'audience': NAME + 'x'}),
    ('E14', {'audience': None}), ('E16 Parts', {'subject_token': 'x'}),
]
for number, (first, one) in enumerate(IN_ORDER):
    for _, other in IN_ORDER[number + 1:]:
        if not one.keys() & other.keys():
            asked(first, **one, **other)
for name in ('scope', 'options', 'actor_token', 'actor_token_type', 'subject_token_type', 'grant_type'):
    asked('E2', **{name: ['x', 'x']})
asked('E2', requested_token_type=[JWT, JWT], grant_type=None)
asked('E8', actor_token_type='x', resource='x', scope='none', options='{')
narrows('E12 Role 0', UNKNOWN_ROLE, **ACTOR)
narrows('E13', ONE, audience=NAME, **ACTOR)
narrows('E11', ONE, scope='none', **ACTOR)
narrows('E10', ONE, resource='x', **ACTOR)
add('E1', '/v1/token', '-', AT, '%FF&' + form([(name, 'x') for name in SINGLE] * 2))
OTHERS = [(name, 'x') for name in SINGLE if name not in ('grant_type', 'subject_token')]
add('E2', '/v1/token', '-', AT, form(OTHERS * 2))
add('E3', '/v1/token', '-', AT, form(OTHERS))
add('E4', '/v1/token', '-', AT, form([('grant_type', 'x'), *OTHERS]))
add('E5', '/v1/token', '-', AT, form([('grant_type', EXCHANGE), *OTHERS]))
add('E6', '/v1/token', '-', AT, form([('grant_type', EXCHANGE), ('subject_token', 'x'), *OTHERS]))

# Boundaries that a token carries: each has to allow what is asked, by one of its rules.
puts(policy((EDITOR, [EVERYBODY], None), at='//storage.googleapis.com'))
puts({'kind': 'role', 'role': VIEWER, 'permissions': [GET]})


def bounded(want, *lists, at=AT + 100, permission=GET, resource=BUCKET, **wif):
    """A check of a token with these boundaries, each a list of rules."""
    check(want, access(wif=dict({'bounds': list(lists)}, **wif)), at, permission, resource)


AT_A, AT_B, AT_PARENT = [rule()], [rule(at=SIBLING)], [rule(at=PARENT)]
for want, resource in [('allowed', BUCKET), ('allowed', BUCKET + '/objects/x'), ('allowed', BUCKET + '/objects/a/b'), ('G8 0', BUCKET + 'b'),
                       ('G8 0', BUCKET + '.b'), ('G8 0', SIBLING), ('G8 0', PARENT), ('G8 0', BUCKET[:-2]), ('G8 0', '//storage.googleapis.com'),
                       ('G8 0', BUCKET.replace('//', '//x.')), ('G8 0', BUCKET.replace('/a', '/A'))]:
    bounded(want, AT_A, resource=resource)
for want, resource, *lists in [
    ('allowed', BUCKET, AT_A, AT_A), ('G8 1', BUCKET, AT_A, AT_B), ('G8 0', SIBLING, AT_A, AT_B), ('G8 0', PARENT, AT_A, AT_B),
    ('allowed', BUCKET, AT_PARENT, AT_A), ('G8 1', SIBLING, AT_PARENT, AT_A), ('G8 1', SIBLING, AT_PARENT, AT_A, AT_B),
    ('G8 2', BUCKET, AT_PARENT, AT_A, AT_B), ('G8 1', BUCKET, AT_A, AT_B, AT_PARENT), ('allowed', BUCKET, AT_A + AT_B),
    ('allowed', SIBLING, AT_A + AT_B), ('allowed', BUCKET, AT_B + AT_A, AT_A), ('G8 1', SIBLING, AT_B + AT_A, AT_A),
    ('allowed', BUCKET, *[AT_A] * 20), ('G8 19', BUCKET, *[AT_A] * 19, AT_B), ('G8 0', SIBLING, *[AT_A] * 19, AT_B),
    ('allowed', BUCKET, AT_B * 9 + AT_A), ('G8 0', BUCKET, AT_B * 10), ('allowed', BUCKET + '/objects/x/y', [rule(at=BUCKET + '/objects/x')]),
    ('G8 0', BUCKET + '/objects/xy', [rule(at=BUCKET + '/objects/x')]), ('allowed', BUCKET, [rule(at='//storage.googleapis.com')]),
    ('G8 0', BUCKET, [rule(at='//storage')]),
]:
    bounded(want, *lists, resource=resource)

# G8 stands behind G7 and before G9.
bounded('G7 0', AT_B, scopes=['a', EVERY])
bounded('G7 1', AT_B, scopes=[EVERY, 'read', EVERY], permission=CREATE)
bounded('G6 0', AT_B, accounts=[OTHER], scopes=['a', EVERY])
bounded('G5 0', AT_B, pools=['1234/no-pool'])
bounded('G4', AT_B, at=AT + 900)
bounded('G8 0', AT_B, permission='a.b.c')
bounded('G9', [rule(at='//iam.googleapis.com')], resource='//iam.googleapis.com/x')
bounded('G8 0', AT_A, resource='//iam.googleapis.com/x')
introspect('inactive', access(wif={'bounds': [AT_A]}))

# The roles of a rule: one of them holds the permission as it was put last.
for want, permission, *roles in [
    ('allowed', GET, VIEWER), ('G8 0', CREATE, VIEWER), ('allowed', CREATE, EDITOR), ('allowed', CREATE, VIEWER, EDITOR),
    ('allowed', CREATE, EDITOR, VIEWER), ('G8 0', GET, CREATOR), ('allowed', GET, *[CREATOR] * 9, EDITOR), ('G8 0', GET, PUT_LATER),
    ('G8 0', GET, 'roles/none'), ('allowed', GET, 'roles/none', VIEWER), ('G8 0', 'a.b.c', VIEWER, EDITOR), ('G8 0', GET[:-1], VIEWER),
    ('G8 0', GET + '1', VIEWER), ('G8 0', GET.upper(), VIEWER),
]:
    bounded(want, [rule(*roles)], permission=permission)
bounded('G8 0', [rule(CREATOR), rule(VIEWER, at=SIBLING)])
bounded('allowed', [rule(CREATOR), rule(VIEWER)])
for permissions, of_get, of_create in [([], 'G8 0', 'G8 0'), ([CREATE], 'G8 0', 'allowed'), ([CREATE, GET], 'allowed', 'allowed'),
                                       (['a.b.c'], 'G8 0', 'G8 0'), ([GET], 'allowed', 'G8 0')]:
    puts({'kind': 'role', 'role': VIEWER, 'permissions': permissions})
    bounded(of_get, AT_A)
    bounded(of_create, AT_A, permission=CREATE)
    bounded(of_get.replace('0', '1'), [rule(EDITOR)], AT_A)
for permissions, want in [([GET], 'allowed'), ([], 'G8 0')]:
    puts({'kind': 'role', 'role': PUT_LATER, 'permissions': permissions})
    bounded(want, [rule(PUT_LATER)])
bounded('G8 0', [rule('roles/put.at.last')])
puts({'kind': 'role', 'role': 'roles/put.at.last', 'permissions': [GET]})
bounded('allowed', [rule('roles/put.at.last')])

# The condition of a rule: true, false, or an error, which doesn't hold.
for want, text in [
    ('allowed', 'true'), ('G8 0', 'false'), ('G8 0', '1 / 0 == 1'), ('allowed', '1 / 0 == 1 || true'), ('G8 0', '1 / 0 == 1 && true'),
    ('G8 0', '!(1 / 0 == 1)'), ('G8 0', 'resource.type == "a"'), ('G8 0', 'resource.type != "a"'), ('G8 0', 'has(resource.type)'),
    ('allowed', '!has(resource.type)'), ('allowed', 'resource.service == "storage.googleapis.com"'),
    ('allowed', 'resource.name == "projects/_/buckets/a"'), ('G8 0', 'resource.name == "projects/_/buckets/b"'),
    ('G8 0', f'resource.name == "{BUCKET}"'), ('allowed', 'resource.name.endsWith("/a")'),
    ('allowed', 'resource.name.extract("buckets/{b}") == "a"'), ('G8 0', 'resource.name.split("/")[4] == "a"'), ('allowed', 'size(resource) == 2'),
    ('allowed', 'request.time == timestamp("2023-11-14T22:15:00Z")'), ('G8 0', 'request.time < timestamp("2023-11-14T22:15:00Z")'),
    ('G8 0', 'request.date == request.time'), ('G8 0', 'request.time + duration("87600000h") > request.time'), ('allowed', ' true // a "b"'),
    ('allowed', "resource.name == 'projects/_/buckets/a'"), ('allowed', '"\\u00e9" == "\u00e9"'), ('allowed', '"\\t\\n\\"" != "\U0001f600"'),
    ('allowed', 'true\n&&\ttrue'), ('allowed', '[1].all(x, [x].all(y, y == 1))'), ('G8 0', '9223372036854775807 + 1 > 0'),
]:
    bounded(want, [rule(text=text)])
UNTIL = [rule(text='request.time < timestamp("2023-11-14T22:15:00Z")')]
for want, at in [('allowed', 0), ('allowed', AT), ('allowed', AT + 99), ('G8 0', AT + 100), ('G8 0', AT + 899), ('G4', AT + 900)]:
    bounded(want, UNTIL, at=at)
LOGS = [rule(text='resource.name.startsWith("projects/_/buckets/a/objects/logs/")')]
for want, path in [('allowed', '/objects/logs/x'), ('G8 0', '/objects/logs'), ('G8 0', '/objects/x'), ('G8 0', '')]:
    bounded(want, LOGS, resource=BUCKET + path)
for want, *rules in [
    ('allowed', rule(text='1 / 0 == 1'), rule()), ('allowed', rule(text='false'), rule(text='true')), ('allowed', rule(), rule(text='1 / 0 == 1')),
    ('G8 0', rule(text='false'), rule(text='1 / 0 == 1')), ('G8 0', rule(CREATOR, text='true'), rule(text='false')),
    ('G8 0', rule(at=SIBLING, text='true'), rule(text='false'), rule(CREATOR)), ('allowed', *[rule(text='false')] * 9, rule()),
]:
    bounded(want, rules)
bounded('G8 1', UNTIL, LOGS, at=AT)
bounded('G8 0', UNTIL, LOGS)
bounded('allowed', UNTIL, LOGS, at=AT, resource=BUCKET + '/objects/logs/x')
bounded('G8 1', [rule(text='true')], [rule(text='1 / 0 == 1')])
bounded('G8 0', [rule(text='1 / 0 == 1')], [rule(text='true')])

# Boundaries that the service doesn't write: such a payload is none of its own.
for lists in ([[]], [AT_A, []], [AT_A * 11], [AT_A, AT_B * 11], rule(), [rule()], None, 'x', 7, [None], ['x'], [7], [[None]], [[[]]], [{}], [[{}]],
              [[7]], [[rule(), None]], [{'accessBoundaryRules': AT_A}], {'accessBoundaryRules': AT_A}):
    check('G3', access(wif={'bounds': lists}))
bounded('allowed', AT_A * 10)
bounded('allowed', [rule(*[VIEWER] * 10)])
bounded('allowed', [rule(*['roles/' + 'r' * 64] * 9, VIEWER)] * 10)
for one in (without('availableResource'), without('availablePermissions'), dict(rule(), more=1), dict({'a': None}, **rule()), rule(at=None),
            dict(reversed(rule().items())), dict(rule(), availabilityCondition={'expression': 'true'}), dict(reversed(rule(text='true').items())),
            offers(None), offers([])):
    bounded('G3', [one])
    bounded('G3', AT_B, [rule(), one])
for resource in NO_RESOURCES:
    bounded('G3', [rule(at=resource)])
for names in NO_ROLES:
    bounded('G3', [offers(names)])
for condition in (*NO_CONDITIONS, {'expression': 'true', 'title': 'x'}, {'description': 'x', 'expression': 'true'}):
    bounded('G3', [where(condition)])
for text in NO_CONDITION_TEXT:
    bounded('G3', [rule(text=text)])
bounded('G8 0', [rule(at='//h/' + 'a' * 1020)])
bounded('G8 0', [rule('roles/' + 'r' * 64)])
for text in ('true' + ' ' * 4092, 'true' + '\t' * 4092, '!!' * 255 + 'true', '(' * 32 + 'true' + ')' * 32):
    bounded('allowed', [rule(text=text)])
CONDITIONED = compact(facts({'bounds': [AT_A, [rule(text='resource.name == "projects/_/buckets/a"')]]}))
check('allowed', access(CONDITIONED))
check('G2', access(CONDITIONED, key=OUTSIDE))
for want, old, new in [
    *[('G3', old, old.replace(part, part + ' ')) for old, part in [
        ('bounds":[', '['), ('bounds":[[', '[['), ('bounds":[[{', '{'), ('"availablePermissions":', ':'), ('inRole:', ':'), ('{"expression"', '{'),
        ('""}', '""'), ('}]],"pools', '}]'), ('}],[{', ',')]],
    ('G3', '}],[{', '}],[],[{'), ('G3', 'bounds":[[', 'bounds":[[],['), ('G3', '}]],"pools', '},{}]],"pools'),
    ('G3', '}]],"pools', '},null]],"pools'), ('G3', '}]],"pools', '},]],"pools'), ('G3', '"bounds"', '"bounds":[],"bounds"'),
    ('G3', '{"availablePermissions"', '{"availablePermissions":[],"availablePermissions"'),
    ('G3', '"availableResource"', '"availableResource":"//a","availableResource"'), ('G3', '"availableResource"', '"availableresource"'),
    ('G3', '"availabilityCondition":', '"a":1,"availabilityCondition":'),
    ('G3', '"availabilityCondition":', '"availabilityCondition":null,"availabilityCondition":'),
    ('G3', '"expression":', '"expression":"false","expression":'), ('G3', '"expression":', '"Expression":'),
    ('G3', '{"expression"', '{"description":"x","expression"'), ('G3', '""}', '"","title":"x"}'),
    ('G3', '"availableResource":"//', '"availableResource":"\\/\\/'), ('G3', 'roles/', 'roles\\/'), ('G3', 'inRole', '\\u0069nRole'),
    ('G3', '\\"projects', '\\u0022projects'), ('G3', ' == ', '\\u0020== '),
    ('allowed', ' == ', '=='), ('allowed', ' == ', '  ==  '), ('G8 1', ' == ', ' != '), ('G8 0', 'buckets/a"', 'buckets/b"'),
    ('G8 0', 'inRole:' + VIEWER, 'inRole:' + CREATOR),
]:
    if old not in CONDITIONED:
        raise ValueError(old)
    check(want, access(CONDITIONED.replace(old, new, 1)))
