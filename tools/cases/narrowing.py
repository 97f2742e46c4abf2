"""Access tokens exchanged for narrower ones."""
from model import ACCESS, EVERY
from signing import AT, compact, signed

from .requests import (BUCKET, BUILDER, FULL, GATE, GET, GITHUB, NAME, OUTSIDE, OWN, REPOSITORY, VIEWER, actors, bounds, check, exchange,
                       introspect, latest, narrower, narrows, policy, puts, rule, subject, told, where)
from .first import SIXTEEN, SORTED
from .providers import SUB
from .exchanges import ACTOR, AT_A, AT_B, CREATE, EDITOR, IN_ORDER, LOGS, LONGEST, ONE, PARENT, SIBLING, STANDS, UNKNOWN_ROLE, UNTIL

# Narrowed tokens: by a boundary on each of two buckets, one after the other. Each says what its link carries, and that of its parent before.
puts(policy(at='//storage.googleapis.com'))
puts(policy((VIEWER, [REPOSITORY, 'serviceAccount:' + BUILDER], None)))
exchange('issued', subject(FULL))
ROOT = latest()
bounds('issued', *AT_A, token=ROOT, at=AT + 100)
ON_A = narrower(ROOT, *AT_A, at=AT + 100)
bounds('issued', *AT_B, token=ON_A, at=AT + 100)
ON_BOTH = narrower(ON_A, *AT_B, at=AT + 100)
for token, of_a, of_b in [(ROOT, 'allowed', 'G9'), (ON_A, 'allowed', 'G8 0'), (ON_BOTH, 'G8 1', 'G8 0')]:
    check(of_a, token)
    check(of_a, token, resource=BUCKET + '/objects/x')
    check(of_b, token, resource=SIBLING)
    check('G4', token, AT + 900)
    introspect('active', token, AT + 899)
    introspect('inactive', token, AT + 900)
narrows('E11', None, ON_A, AT + 100, scope='none')
narrows('issued', None, ON_A, AT + 100)
check('allowed', narrower(ON_A, at=AT + 100))
bounds('issued', *AT_A, *AT_B, token=ROOT)
check('allowed', narrower(ROOT, *AT_A, *AT_B))
check('G9', narrower(ROOT, *AT_A, *AT_B), resource=SIBLING)
bounds('issued', *AT_B, token=ROOT)
check('G8 0', narrower(ROOT, *AT_B))
check('G9', narrower(ROOT, *AT_B), resource=SIBLING)

# A chain has eight links at most.
exchange('issued', subject(FULL))
CHAIN = [latest()]
for number in range(1, 8):
    narrows('issued', None, CHAIN[-1], AT + number)
    CHAIN.append(narrower(CHAIN[-1], at=AT + number))
    introspect('active', CHAIN[-1], AT + 899)
    check('allowed', CHAIN[-1])
    check('G9', CHAIN[-1], permission=CREATE)
for changes in ({}, {'scope': 'read'}, {'options': ONE}, {'options': '{}'}, {'requested_token_type': ACCESS}):
    narrows('E24', changes.pop('options', None), CHAIN[-1], **changes)
narrows('issued', None, CHAIN[-2])
narrows('E24', None, narrower(CHAIN[-2]))
narrows('issued', None, CHAIN[0], scope='read')
check('allowed', narrower(CHAIN[0], scope='read'))
narrows('issued', None, narrower(CHAIN[0], scope='read'))

# A chain of eight with a boundary at each link but the first, each below the one before, and one that has none of them.
PATHS = [BUCKET + '/a' * count for count in range(7)]
DEEP = [ROOT]
for path in PATHS:
    bounds('issued', rule(at=path), token=DEEP[-1], at=AT + 50)
    DEEP.append(narrower(DEEP[-1], rule(at=path), at=AT + 50))
for number, path in enumerate(PATHS):
    check('allowed' if number == 6 else f'G8 {number + 1}', DEEP[-1], resource=path)
    check('allowed', DEEP[number + 1], resource=path)
check('G8 0', DEEP[-1], resource=PARENT)
check('G8 1', DEEP[-1], resource=BUCKET + '/b/a/a/a/a/a')
bounds('E24', rule(at=PATHS[-1]), token=DEEP[-1], at=AT + 50)
narrows('issued', None, ROOT)
BETWEEN = narrower(ROOT)
bounds('issued', *AT_A, token=BETWEEN)
narrows('issued', None, narrower(BETWEEN, *AT_A))
LAST = narrower(narrower(BETWEEN, *AT_A, number=-2))
bounds('issued', *AT_B, token=LAST)
check('G8 1', narrower(LAST, *AT_B))
check('allowed', LAST)

# The words of a narrowed token: those of the scope, or else the subject's own; each link's have to allow.
puts(policy((EDITOR, [REPOSITORY], None)))
exchange('issued', subject(FULL), scope='read write')
WORDED = latest(scope='read write')
for scope, of_get, of_create in [(None, 'allowed', 'allowed'), ('read', 'allowed', 'G7 1'), ('write', 'G7 1', 'allowed'),
                                 ('a', 'G7 1', 'G7 1'), (EVERY, 'allowed', 'allowed'), ('a read', 'allowed', 'G7 1'),
                                 (SIXTEEN, 'G7 1', 'G7 1'), ('q', 'allowed', 'allowed')]:
    narrows('issued', None, WORDED, scope=scope)
    token = narrower(WORDED, scope=scope)
    introspect('active', token)
    check(of_get, token)
    check(of_create, token, permission=CREATE)
    check('G7 0', token, permission='a.b.c')
narrows('issued', None, WORDED, scope='')
narrows('issued', None, narrower(WORDED), tail='&scope=')
introspect('active', narrower(narrower(WORDED, number=-2)))
narrows('issued', None, WORDED, scope='read')
READER = narrower(WORDED, scope='read')
narrows('issued', None, READER)
check('G7 1', narrower(READER), permission=CREATE)
narrows('issued', None, READER, scope='write')
WRITER = narrower(READER, scope='write')
check('G7 2', WRITER)
check('G7 1', WRITER, permission=CREATE)
bounds('issued', *AT_B, token=WRITER, scope='read write')
check('G7 2', narrower(WRITER, *AT_B, scope='read write'))
for permissions, want in [([], 'G7 0'), ('*', 'G7 2'), ([GET], 'G7 2')]:
    puts({'kind': 'scope', 'scope': 'read', 'permissions': permissions})
    check(want, WRITER)
for permissions, want in [([GET, CREATE], 'allowed'), ('*', 'allowed'), ([], 'G7 2'), ([CREATE], 'G7 2')]:
    puts({'kind': 'scope', 'scope': 'write', 'permissions': permissions})
    check(want, WRITER)
for scope in (SIXTEEN + ' read', 'read  write', 'read ', 'none', 'read none'):
    narrows('E11', None, WORDED, scope=scope)
narrows('issued', None, ROOT, scope=' '.join([LONGEST] * 16))
narrows('E25', None, narrower(ROOT, scope=' '.join([LONGEST] * 16)))

# The life of a narrowed token: to its parent's end, and an hour at most.
narrows('issued', None, ROOT, AT + 899)
introspect('active', narrower(ROOT, at=AT + 899), AT + 899)
introspect('inactive', narrower(ROOT, at=AT + 899), AT + 900)
narrows('E21', None, ROOT, AT + 900)
narrows('E21', None, ROOT, 200000000000)
narrows('E21', None, ON_BOTH, AT + 900)
exchange('issued', subject(dict(FULL, exp=AT + 7200)))
HOUR = latest(exp=AT + 3600)
narrows('issued', None, HOUR, AT + 3599)
introspect('active', narrower(HOUR, at=AT + 3599), AT + 3599)
narrows('issued', None, HOUR, AT)
introspect('active', narrower(HOUR, at=AT), AT + 3599)
narrows('issued', None, HOUR, AT - 600)
EARLY = narrower(HOUR, at=AT - 600)
introspect('active', EARLY, AT + 2999)
introspect('inactive', EARLY, AT + 3000)
introspect('active', HOUR, AT + 3000)
check('allowed', EARLY, AT + 2999)
check('G4', EARLY, AT + 3000)
narrows('E21', None, EARLY, AT + 3000)
narrows('issued', None, EARLY, AT + 2999)
introspect('active', narrower(EARLY, at=AT + 2999), AT + 2999)
introspect('inactive', narrower(EARLY, at=AT + 2999), AT + 3000)
narrows('issued', None, HOUR, 0)
introspect('active', narrower(HOUR, at=0), 3599)
check('G4', narrower(HOUR, at=0), 3600)

# A pool that is disabled ends each link above its own, and a provider none.
puts({'kind': 'pool', 'project': '1234', 'pool': 'ci-pool', 'disabled': True})
for token in (ROOT, ON_A, ON_BOTH, CHAIN[-1]):
    check('G5 0', token)
    introspect('inactive', token, AT + 100)
    narrows('E21', None, token, AT + 100)
puts({'kind': 'pool', 'project': '1234', 'pool': 'ci-pool'})
for token, want in [(ROOT, 'allowed'), (ON_A, 'allowed'), (ON_BOTH, 'G8 1')]:
    check(want, token)
    introspect('active', token, AT + 100)
puts(dict(GITHUB, disabled=True))
introspect('active', ON_A, AT + 100)
narrows('issued', None, ON_A, AT + 100)
check('allowed', narrower(ON_A, at=AT + 100))
puts(dict(GITHUB, mapping=SUB))
bounds('issued', *AT_A, token=ROOT, at=AT + 100)
check('allowed', narrower(ROOT, *AT_A, at=AT + 100))
puts(GITHUB)

# The subject token has to be the very text that was issued, and no audience is named.
for token in ('x', 'a.b', 'a.b.c', SORTED, subject(FULL), ROOT[:-1], ROOT + '.', '.' + ROOT, ' ' + ROOT, ROOT + ' ', ROOT[:-1] + 'A', 'Bearer ' + ROOT,
              signed(OWN, told(ROOT), '{"typ":"JWT","alg":"HS256"}'), signed(OUTSIDE, told(ROOT)), signed(OWN, dict(told(ROOT), jti='4294967295')),
              signed(OWN, dict(told(ROOT), iat=AT + 1)), narrower(ROOT, *AT_A, number=0), narrower(ON_A, *AT_A), GATE):
    narrows('E21', None, token)
    bounds('E21', *AT_A, token=token)
for audience in (NAME, NAME + 'x', 'x', ' ', [NAME, NAME], ['', 'x']):
    narrows('E14', None, ROOT, audience=audience)
    narrows('E14', None, 'x', audience=audience)
narrows('issued', None, ROOT, audience='')
narrows('issued', None, ROOT, audience=['', ''])
narrows('issued', None, ROOT, tail='&audience&colour=red')
narrows('issued', '', ROOT, requested_token_type=ACCESS, actor_token='', actor_token_type='', resource='')
introspect('active', narrower(ROOT))
for first, one in IN_ORDER[:14]:
    options = one.get('options')
    for changes in ({'audience': NAME}, {'subject_token': 'x'}, {'audience': 'x', 'subject_token': 'x'}):
        if not changes.keys() & one.keys():
            narrows(first, options, STANDS, **{name: one[name] for name in one if name != 'options'}, **changes)
for code, changes in (('E14', {'audience': NAME}), ('E21', {'subject_token': 'x'}), ('E14', {'audience': 'x', 'subject_token': 'x'})):
    narrows('E13', ONE, STANDS, **ACTOR, **changes)
    narrows(code, None, STANDS, **ACTOR, **changes)
narrows('E14', None, CHAIN[-1], audience=NAME)
narrows('E21', None, CHAIN[-1], AT + 900)
narrows('E11', None, CHAIN[-1], AT + 900, scope='none')
narrows('E12 Role 0', UNKNOWN_ROLE, CHAIN[-1], AT + 900)

# The longest token: 8,192 bytes. Too many links are told before too many bytes, and a subject token that isn't live before both.
FILL = rule(text='true' + ' ' * 4092)
bounds('issued', FILL, token=ROOT)
ROOM = 6083 - len(compact(told(narrower(ROOT, FILL, rule(text='true')))))
for want, more in [('issued', 0), ('E25', 1), ('issued', -1), ('E25', 2)]:
    bounds(want, FILL, rule(text='true' + ' ' * (ROOM + more)), token=ROOT)
    if want == 'issued':
        token = narrower(ROOT, FILL, rule(text='true' + ' ' * (ROOM + more)))
        introspect('active', token)
        check('allowed', token)
        narrows('E25', None, token)
bounds('E25', FILL, FILL, token=ROOT)
bounds('E25', FILL, FILL, token=CHAIN[-2])
bounds('E24', FILL, FILL, token=CHAIN[-1])
bounds('E21', FILL, FILL, token=CHAIN[-1], at=AT + 900)
bounds('E21', FILL, FILL, token='x')
bounds('E12 Role 1', FILL, rule('roles/none', text='true' + ' ' * 4092), token=CHAIN[-1])

# What a boundary says beside its rules' own members isn't carried; an expression is carried as it was given.
for given, carried in [
    (dict(rule(), title='x', description=None), rule()), (dict(reversed(rule().items())), rule()),
    (where({'title': 'x', 'expression': 'true', 'description': 'y'}), rule(text='true')),
    (dict(reversed(rule(text='true').items())), rule(text='true')), (rule(VIEWER, VIEWER, EDITOR), rule(VIEWER, VIEWER, EDITOR)),
    *[(rule(text=text), rule(text=text)) for text in (
        ' true', 'true // "a"\n', '(true)', "'a' == \"\\u0061\"", 'true\t&&\r\ntrue', '"\u00e9\U0001f600" != \'\\\\\'', '"\u007f\u0001" != ""',
        '"</" != r"\\/"')],
]:
    bounds('issued', given, token=ROOT)
    introspect('active', narrower(ROOT, carried))
    check('allowed', narrower(ROOT, carried))
ESCAPED = compact(rule()).replace('//storage', '\\/\\/storag\\u0065')
narrows('issued', '{"accessBoundary":{"more":1,"accessBoundaryRules":[' + ESCAPED + ']},"b":2}', ROOT)
introspect('active', narrower(ROOT, rule()))
for options in ('{}', '{"accessboundary":1}', ''):
    narrows('issued', options, ON_A)
    introspect('active', narrower(ON_A))

# Who may act is carried on, and two tokens of one subject at one moment are two links.
exchange('issued', subject(dict(FULL, may_act=actors(3, 'a'))))
MAY_ACT = latest(may_act=actors(3, 'a'))
bounds('issued', *AT_A, token=MAY_ACT)
introspect('active', narrower(MAY_ACT, *AT_A))
narrows('issued', None, narrower(MAY_ACT, *AT_A))
introspect('active', narrower(narrower(MAY_ACT, *AT_A, number=-2)))
for _ in range(2):
    bounds('issued', *AT_A, token=ROOT)
introspect('active', narrower(ROOT, *AT_A))
introspect('active', narrower(ROOT, *AT_A, number=-2))
introspect('inactive', narrower(ROOT, *AT_A, number=0))

# A role that is put again changes what the boundaries of tokens allow, and so does a condition with the time.
bounds('issued', rule(VIEWER), token=ROOT)
VIEWED = narrower(ROOT, rule(VIEWER))
for permissions, of_get, of_create in [([], 'G8 0', 'G8 0'), ([CREATE], 'G8 0', 'allowed'), ([GET, CREATE], 'allowed', 'allowed'),
                                       ([GET], 'allowed', 'G8 0')]:
    puts({'kind': 'role', 'role': VIEWER, 'permissions': permissions})
    check(of_get, VIEWED)
    check(of_create, VIEWED, permission=CREATE)
bounds('issued', *UNTIL, token=ROOT)
UNTIL_THEN = narrower(ROOT, *UNTIL)
for want, at in [('allowed', AT), ('allowed', AT + 99), ('G8 0', AT + 100), ('G4', AT + 900)]:
    check(want, UNTIL_THEN, at)
bounds('issued', *LOGS, token=UNTIL_THEN)
check('allowed', narrower(UNTIL_THEN, *LOGS), AT + 99, resource=BUCKET + '/objects/logs/x')
check('G8 1', narrower(UNTIL_THEN, *LOGS), AT + 99)
check('G8 0', narrower(UNTIL_THEN, *LOGS))
bounds('issued', rule(text='1 / 0 == 1'), token=ROOT)
check('G8 0', narrower(ROOT, rule(text='1 / 0 == 1')))
