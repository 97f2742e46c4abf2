"""Tokens of service accounts: the request for one, the accounts on the way to it, and what its token carries."""
from model import EVERY, GET_ACCESS_TOKEN
from signing import AT, compact, signed

from .requests import (ADMIN, ANY, BUCKET, BUILDER, CREATOR, DEPLOY, FULL, GATE, GENERATE, GET, GITHUB, HELPER, OUTSIDE, OWN, PATH, REPOSITORY,
                       SUBJECT, VIEWER, access, account_at, add, altered, asks_for, bounds, check, exchange, generates, impersonate, impersonated,
                       introspect, latest, narrow, narrower, narrows, policy, puts, reach, rule, subject, through, told)
from .first import SIXTEEN, SORTED
from .exchanges import AT_A, AT_B, CREATE, EDITOR, LONGEST, SIBLING

NONE = 'none@octo.iam.gserviceaccount.com'
STEPS = [f'step-{number}@octo.iam.gserviceaccount.com' for number in range(1, 6)]
IAM = '//iam.googleapis.com'


def member(account):
    return 'serviceAccount:' + account


def account(email, disabled=False):
    puts({'kind': 'account', 'email': email, 'disabled': disabled})


# A token that reaches one bucket and one account gets that account's token, which is narrowed to another bucket.
puts(policy((VIEWER, [REPOSITORY, member(BUILDER)], None)))
exchange('issued', subject(FULL))
FREE = latest()
LIMITED = narrow(FREE, rule(), rule(CREATOR, at=account_at(BUILDER)), at=AT + 100)
generates('issued', LIMITED, scope=[EVERY])
BUILT = impersonated(LIMITED, BUILDER, scope=EVERY)
BUILT_AT_B = narrow(BUILT, *AT_B, at=AT + 100)
for token, of_a, of_b in [(BUILT, 'allowed', 'G8 0'), (BUILT_AT_B, 'G8 1', 'G8 0')]:
    check(of_a, token)
    check(of_b, token, resource=SIBLING)
    check(of_a, token, AT + 200)
    check('G4', token, AT + 900)
    introspect('active', token, AT + 899)
    introspect('inactive', token, AT + 900)
generates('I9 0', LIMITED, DEPLOY)
generates('I9 1', LIMITED, DEPLOY, delegates=through(BUILDER))

# By way of delegates; and a request without a bearer.
generates('issued', FREE, DEPLOY, delegates=through(BUILDER), scope=[EVERY])
DEPLOYED = impersonated(FREE, BUILDER, DEPLOY, scope=EVERY)
introspect('active', DEPLOYED)
check('G9', DEPLOYED)
generates('I9 1', FREE, DEPLOY, delegates=through(BUILDER, HELPER))
generates('I8 0', FREE, NONE)
generates('I6', FREE, DEPLOY, lifetime='3601s')
generates('I1', '-', DEPLOY)
generates('I9 0', FREE, DEPLOY)
generates('issued', FREE)
introspect('active', impersonated(FREE, BUILDER))
exchange('issued', subject(FULL), scope=ANY)
ROOT = latest(scope=ANY)

# The account of the path: any text there, and one that is an account's name.
for name in ('', '-', '1234', 'builder', 'builder@octo', '@octo.iam.gserviceaccount.com', 'builder@.iam.gserviceaccount.com', BUILDER + '/',
             '/' + BUILDER, 'a/b', BUILDER.replace('@', '%40'), BUILDER.upper(), 'B' + BUILDER[1:], 'b_ilder@octo.iam.gserviceaccount.com',
             'build.er@octo.iam.gserviceaccount.com', 'a@' + BUILDER, BUILDER + '.', BUILDER[:-1], 'builder@developer.gserviceaccount.com',
             'n' * 64 + '@octo.iam.gserviceaccount.com', 'builder@' + 'p' * 64 + '.iam.gserviceaccount.com', member(BUILDER), *through(BUILDER),
             BUILDER + ':generateAccessToken'):
    generates('I2', ROOT, name)
for name in ('n' * 63 + '@' + 'p' * 63 + '.iam.gserviceaccount.com', '-@-.iam.gserviceaccount.com', '0@0.iam.gserviceaccount.com'):
    generates('I8 0', ROOT, name)
PLAIN = compact({'scope': [ANY]})
add('issued', GENERATE + BUILDER + ':generateAccessToken?alt=json', ROOT, AT + 100, PLAIN)
for path in (':GenerateAccessToken', ':generateAccessTokens', '', ':generateIdToken', ':signJwt'):
    add('H4', GENERATE + BUILDER + path, ROOT, AT + 100, PLAIN)

# The body: a JSON object, in which a repeated member's last counts, and others than the three are ignored.
for body in ('', ' ', '[]', '"scope"', 'null', '1', 'true', '{', '}', PLAIN[:-1], PLAIN + '}', PLAIN + PLAIN, '{"scope"}', "{'scope':1}",
             '\ufeff' + PLAIN, PLAIN[:-1] + ',}', PLAIN[:-1] + ',"a":1e400}', PLAIN[:-1] + ',"a":"\\ud800"}', b'\xff', b'{"scope":"\xff"}',
             PLAIN[:-1] + ',"a":' + '[' * 127 + ']' * 127 + '}', 'scope=' + ANY, '[' + PLAIN + ']'):
    asks_for('I3', body, ROOT)
for body in (' ' + PLAIN + '\n', PLAIN[:-1] + ',"a":' + '[' * 126 + ']' * 126 + '}', PLAIN[:-1] + ',"a":-0,"b":1.5e300,"lifetime":null,"delegates":null}',
             '{"scope":7,' + PLAIN[1:], PLAIN[:-1] + ',"delegates":7,"delegates":[],"lifetime":7,"lifetime":"60s"}', '{"\\u0073cope' + PLAIN[7:],
             PLAIN[:-1] + ',"Delegates":7,"LIFETIME":7,"name":"x"}'):
    asks_for('issued', body, ROOT)
for body in ('{}', '{"Scope":["' + ANY + '"]}', PLAIN[:-1] + ',"scope":null}', PLAIN[:-1] + ',"scope":[]}', '{"lifetime":"60s"}'):
    asks_for('I5', body, ROOT)
asks_for('I4', PLAIN[:-1] + ',"delegates":[],"delegates":7}', ROOT)
asks_for('I6', PLAIN[:-1] + ',"lifetime":"60s","lifetime":60}', ROOT)

# Delegates: a list of at most four, each with the name of an account behind the same front.
[TO_BUILDER] = through(BUILDER)
for delegates in (7, 0, True, False, '', 'x', TO_BUILDER, {}, {'0': TO_BUILDER}, [7], [None], [True], [''], [[]], [[TO_BUILDER]], [{}],
                  [{'name': TO_BUILDER}], [BUILDER], [member(BUILDER)], ['projects/-/serviceAccounts/'], ['projects/-/serviceAccounts'],
                  ['projects/1234/serviceAccounts/' + BUILDER], ['projects/octo/serviceAccounts/' + BUILDER], ['/' + TO_BUILDER],
                  [account_at(BUILDER)], ['P' + TO_BUILDER[1:]], [TO_BUILDER.replace('A', 'a')], [TO_BUILDER.upper()], [' ' + TO_BUILDER],
                  [TO_BUILDER + ' '], [TO_BUILDER + '/'], [TO_BUILDER.replace('@', '%40')], [TO_BUILDER[:-1]], ['projects/-/serviceAccounts/1234'],
                  ['projects/-/serviceAccounts/' + TO_BUILDER], ['projects/-/serviceAccounts/Builder@octo.iam.gserviceaccount.com'],
                  ['projects/-/serviceAccounts/' + 'n' * 64 + '@octo.iam.gserviceaccount.com'], [TO_BUILDER, None], [TO_BUILDER, 'x'],
                  [TO_BUILDER] * 3 + ['x'], [TO_BUILDER] * 5, [TO_BUILDER] * 4 + ['x'], [None] * 5, [TO_BUILDER] * 300):
    generates('I4', ROOT, DEPLOY, delegates=delegates)
for want, delegates in [('issued', ...), ('issued', None), ('issued', []), ('I9 1', [TO_BUILDER]), ('I9 1', [TO_BUILDER] * 4),
                        ('I8 0', through('n' * 63 + '@octo.iam.gserviceaccount.com'))]:
    generates(want, ROOT, delegates=delegates)

# The scope: a list of one to sixteen words that are known.
for scope in (..., None, '', ANY, 'read', 7, True, {}, {'0': 'read'}, [], [7], [None], [True], [''], [' '], [[]], [['read']], [{}], ['none'],
              ['read', 'none'], ['none', 'read'], ['read', None], ['read', 7], ['read write'], ['read '], [' read'], ['read', ''], ['Read'], ['rea'],
              ['reads'], ['"read"'], ['read\\'], ['r\u00e9ad'], ['read\u0000'], ['read,write'], ['*'], [LONGEST + 'w'], [LONGEST[1:]], ['read'] * 17,
              SIXTEEN.split(' ') + ['read'], SIXTEEN.split(' ') + ['none'], ['read'] * 16 + [7], ['none'] * 17, ['read'] * 1000):
    generates('I5', ROOT, scope=scope)
for scope in ('read', 'read write', 'read read', SIXTEEN, ' '.join(['read'] * 16), LONGEST, 'a ' + EVERY):
    introspect('active', impersonate(ROOT, BUILDER, scope=scope))

# The lifetime: a decimal of 1 to 3,600 seconds with an `s` behind; an hour where there is none.
for lifetime in ('', 's', '0s', '00s', '0', '01s', '060s', '003600s', '3601s', '3609s', '3700s', '4000s', '9999s', '10000s', '36000s', '60', 's60',
                 '60ss', '60s60s', '60S', '60m', '1h', '60 s', ' 60s', '60s ', '60s\n', '60\n', '-1s', '+60s', '--1s', '1.0s', '1.5s', '60.s', '.5s',
                 '1e3s', '0x10s', '6_0s', '6,0s', 'PT60S', '\u0661s', '\uff11s', 'sixtys', '4294967297s', '18446744073709551615s',
                 '18446744073709551616s', '18446744073709551676s', '1' * 400 + 's', 60, 1, 0, 3600, 60.0, 1.0, True, False, [], ['60s'], {},
                 {'seconds': 60}):
    generates('I6', ROOT, lifetime=lifetime)
for seconds in (1, 9, 10, 799, 800, 801, 1000, 3600):
    token = impersonate(ROOT, BUILDER, lifetime=seconds)
    introspect('active', token, AT + min(900, 100 + seconds) - 1)
    introspect('inactive', token, AT + min(900, 100 + seconds))
for lifetime in (..., None):
    generates('issued', ROOT, lifetime=lifetime)
    introspect('active', impersonated(ROOT, BUILDER))

# The bearer is the very text of a token that was issued and is live.
for bearer in ('x', 'a.b', 'a.b.c', '--', SORTED, subject(FULL), ROOT[:-1], ROOT + '.', '.' + ROOT, altered(ROOT), 'Bearer', GATE, ADMIN, 'v' * 8192,
               signed(OWN, told(ROOT), '{"typ":"JWT","alg":"HS256"}'), signed(OUTSIDE, told(ROOT)), signed(OWN, dict(told(ROOT), jti='4294967295')),
               signed(OWN, dict(told(ROOT), iat=AT + 1)), impersonated(ROOT, BUILDER, number=0), BUILDER, member(BUILDER)):
    generates('I7', bearer)
token = impersonate(ROOT, BUILDER, at=AT + 899)
introspect('active', token, AT + 899)
introspect('inactive', token, AT + 900)
for token in (ROOT, LIMITED, BUILT, BUILT_AT_B):
    generates('I7', token, at=AT + 900)
generates('I7', ROOT, at=200000000000)
token = impersonate(ROOT, BUILDER, at=0)
introspect('active', token, 3599)
introspect('inactive', token, 3600)

# Two at fault: the first in the order of the rules counts.
FAULTS = [
    ('I1', {'token': '-'}), ('I2', {'account': 'x'}), ('I3', {'body': '['}), ('I4', {'delegates': 7}), ('I4', {'delegates': [TO_BUILDER] * 5}),
    ('I5', {'scope': ...}), ('I5', {'scope': ['none']}), ('I6', {'lifetime': '0s'}), ('I7', {'token': 'x'}), ('I7', {'at': AT + 900}),
    ('I8 0', {'delegates': through(NONE)}), ('I8 0', {'account': NONE}), ('I9 0', {'account': HELPER}), ('I9 0', {'delegates': through(HELPER)}),
]


def faulty(want, token=ROOT, account=BUILDER, at=AT + 100, body=None, **members):
    if body is None:
        generates(want, token, account, at, **members)
    else:
        asks_for(want, body, token, account, at)


for number, (first, one) in enumerate(FAULTS):
    faulty(first, **one)
    for second, other in FAULTS[number + 1:]:
        if not one.keys() & other.keys() and (first != 'I3' or not other.keys() & {'delegates', 'scope', 'lifetime'}):
            faulty('I8 1' if (first, second) == ('I8 0', 'I9 0') and 'account' in one else first, **one, **other)
faulty('I1', '-', 'x', AT + 900, '[')
faulty('I2', 'x', 'x', AT + 900, '[')
faulty('I3', 'x', NONE, AT + 900, '{')
faulty('I4', 'x', NONE, AT + 900, '{"delegates":7,"lifetime":7}')
faulty('I5', 'x', NONE, AT + 900, '{"lifetime":7}')
faulty('I6', 'x', NONE, AT + 900, PLAIN[:-1] + ',"lifetime":7}')
faulty('I7', 'x', NONE, AT + 900, PLAIN)

# Each account on the way is known and enabled, or the first that isn't is told, before any hop is looked at.
puts(policy((VIEWER, [REPOSITORY, *map(member, [BUILDER, *STEPS])], None)))
ALL = {'account': STEPS[4], 'delegates': through(*STEPS[:4])}


def by(want, *accounts, token=ROOT, at=AT + 100):
    """A request for the last of these accounts by way of the others."""
    generates(want, token, accounts[-1], at, delegates=through(*accounts[:-1]))


by('I8 0', *STEPS)
for email in STEPS[1:]:
    account(email)
by('I8 0', *STEPS)
account(STEPS[0])
by('I9 0', *STEPS)
reach(STEPS[0], REPOSITORY)
for place in range(1, 5):
    by(f'I9 {place}', *STEPS)
    reach(STEPS[place], member(STEPS[place - 1]))
FIVE = impersonate(ROOT, *STEPS)
introspect('active', FIVE)
check('allowed', FIVE)
for place, email in enumerate(STEPS):
    account(email, disabled=True)
    by(f'I8 {place}', *STEPS)
    for other in range(5):
        if other != place:
            by(f'I8 {min(place, other)}', *STEPS[:other], NONE, *STEPS[other + 1:])
    account(email)
ONE, SECOND, THIRD, FOURTH, _ = STEPS
for want, *accounts in [('I8 0', NONE, ONE), ('I8 1', ONE, NONE), ('I8 1', ONE, NONE, SECOND), ('I8 2', ONE, SECOND, NONE), ('I8 1', HELPER, NONE),
                        ('I8 0', NONE, HELPER), ('I8 0', NONE, NONE, NONE), ('I8 2', HELPER, HELPER, NONE, NONE, NONE), ('I9 0', SECOND, ONE),
                        ('I9 1', ONE, THIRD), ('I9 1', ONE, ONE), ('I9 2', ONE, SECOND, ONE), ('issued', ONE), ('issued', ONE, SECOND)]:
    by(want, *accounts)
account(SECOND, disabled=True)
account(FOURTH, disabled=True)
for want, *accounts in [('I8 1', *STEPS), ('I8 1', ONE, SECOND, NONE), ('I8 0', NONE, SECOND), ('I8 2', ONE, THIRD, FOURTH, SECOND), ('I8 1', HELPER, FOURTH),
                        ('issued', ONE)]:
    by(want, *accounts)
account(FOURTH)
by('I8 1', *STEPS)
account(SECOND)
by('issued', *STEPS)

# Each hop is allowed: to the first account to whom the bearer's token is for, and to each later one to the account before it.
SHORTLY = 'request.time < timestamp("2023-11-14T22:15:00Z")'
BEFORE = [REPOSITORY, *map(member, STEPS[:4])]
for place, email in enumerate(STEPS):
    who = BEFORE[place]
    for members in ([], [one for one in [*BEFORE, member(email), f'principal://{PATH}/subject/x'] if one != who]):
        reach(email, *members)
        by(f'I9 {place}', *STEPS)
    puts(policy((VIEWER, [who], None), (CREATOR, [member(NONE)], None), at=account_at(email)))
    by(f'I9 {place}', *STEPS)
    for text, at, want in [(SHORTLY, AT + 99, 'issued'), (SHORTLY, AT + 100, f'I9 {place}'), ('1 / 0 == 1', AT + 100, f'I9 {place}'),
                           (f'resource.service == "{email}"', AT + 100, f'I9 {place}')]:
        reach(email, who, text=text)
        by(want, *STEPS, at=at)
    reach(email, who)
for first, second in [(0, 1), (3, 4)]:
    for place in (second, first):
        reach(STEPS[place])
        by(f'I9 {place}', *STEPS)
    for place in (second, first):
        reach(STEPS[place], BEFORE[place])
        by('issued' if place == first else f'I9 {first}', *STEPS)
for permissions, want in [([], 'I9 0'), ([GET_ACCESS_TOKEN[:-1]], 'I9 0'), ([GET, GET_ACCESS_TOKEN], 'issued'), ([GET_ACCESS_TOKEN], 'issued')]:
    puts({'kind': 'role', 'role': CREATOR, 'permissions': permissions})
    by(want, *STEPS)
reach(ONE)
for upper, want in [(IAM, 'issued'), (IAM + '/projects/-', 'issued'), (account_at(ONE) + '/x', 'I9 0'), (IAM + '/projects/1234', 'I9 0'),
                    (account_at(ONE)[:-1], 'I9 0'), (BUCKET, 'I9 0')]:
    puts(policy((CREATOR, [f'principal://{PATH}/subject/{SUBJECT}'], None), at=upper))
    by(want, ONE)
    puts(policy(at=upper))
reach(ONE, REPOSITORY)
puts(policy((VIEWER, [REPOSITORY, *map(member, [BUILDER, *STEPS])], None)))

# What limits the bearer's token limits each hop: its words, its boundaries, and those of the tokens that it was made from.
puts({'kind': 'scope', 'scope': 'reach', 'permissions': [GET_ACCESS_TOKEN]})
for scope, want in [('read', 'I9 0'), (EVERY, 'issued'), ('read reach', 'issued')]:
    by(want, *STEPS, token=narrow(ROOT, scope=scope))
REACHES = narrow(ROOT, scope='reach')
check('G7 1', impersonate(REACHES, *STEPS))
check('G7 1', impersonate(REACHES, BUILDER, scope='read'))
by('I9 0', *STEPS, token=narrow(REACHES, scope='read'))
for permissions, want in [([], 'I9 0'), ([GET], 'I9 0'), ('*', 'issued'), ([GET_ACCESS_TOKEN], 'issued')]:
    puts({'kind': 'scope', 'scope': 'reach', 'permissions': permissions})
    by(want, *STEPS, token=REACHES)
for place, email in enumerate(STEPS):
    token = narrow(ROOT, rule(CREATOR, at=IAM, text=f'resource.name != "projects/-/serviceAccounts/{email}"'))
    by(f'I9 {place}', *STEPS, token=token)
    by(f'I9 {place}', *STEPS[:place + 1], token=token)
    if place in (1, 4):
        by('issued', *STEPS[:place], token=token)
        by(f'I9 {place}', *STEPS, token=narrow(token))
for want, *rules in [('I9 0', rule()), ('I9 0', rule(VIEWER, at=IAM)), ('issued', rule(VIEWER, CREATOR, at=IAM)),
                     ('I9 2', rule(CREATOR, at=account_at(ONE)), rule(CREATOR, at=account_at(SECOND))),
                     ('I9 0', rule(CREATOR, at=account_at(ONE)[:-1])), ('I9 0', rule(CREATOR, at=IAM, text='1 / 0 == 1')),
                     ('I9 0', rule(CREATOR, at=IAM, text=SHORTLY)), ('issued', rule(CREATOR, at=IAM, text=f'!({SHORTLY})')),
                     ('issued', *[rule(CREATOR, at=account_at(email)) for email in STEPS])]:
    by(want, *STEPS, token=narrow(ROOT, *rules))
ONE_STEP = narrow(ROOT, rule(CREATOR, at=account_at(ONE)))
token = narrow(ONE_STEP, rule(CREATOR, at=IAM))
by('I9 1', *STEPS, token=token)
by('issued', ONE, token=token)

# A service account's token is a bearer as any other: the account is to whom the first hop is granted.
reach(HELPER, member(DEPLOY))
for token, want in [(ROOT, 'I9 0'), (DEPLOYED, 'issued'), (BUILT, 'I9 0')]:
    generates(want, token, HELPER)
generates('I9 0', DEPLOYED, ONE)
generates('I9 0', DEPLOYED)
HELPED = impersonate(DEPLOYED, HELPER)
introspect('active', HELPED)
reach(BUILDER, REPOSITORY, member(HELPER))
AGAIN = impersonate(HELPED, BUILDER)
check('allowed', AGAIN)
introspect('active', impersonate(AGAIN, DEPLOY, HELPER))
reach(HELPER, member(DEPLOY), member(HELPER))
introspect('active', impersonate(HELPED, HELPER))

# What is taken away later: who reached an account keeps its token, and gets no other.
check('allowed', BUILT)
reach(BUILDER)
check('allowed', BUILT)
introspect('active', BUILT)
generates('I9 0', LIMITED)
puts({'kind': 'role', 'role': CREATOR, 'permissions': []})
check('allowed', FIVE)
by('I9 0', *STEPS)
puts({'kind': 'role', 'role': CREATOR, 'permissions': [GET_ACCESS_TOKEN]})
reach(BUILDER, REPOSITORY)
generates('issued', LIMITED)
puts(policy((VIEWER, [REPOSITORY, *map(member, STEPS)], None)))
check('G9', BUILT)
check('allowed', ROOT)
puts(policy((VIEWER, [*map(member, [BUILDER, *STEPS])], None)))
check('allowed', BUILT)
check('G9', ROOT)

# An account that is disabled later ends each token that went by way of it, until it is enabled again.
for place, email in enumerate(STEPS):
    account(email, disabled=True)
    check(f'G6 {place}', FIVE)
    check('G4', FIVE, AT + 900)
    introspect('inactive', FIVE, AT + 100)
    generates('I7', FIVE)
    narrows('E21', None, FIVE, AT + 100)
    check('allowed', BUILT)
    account(email)
    check('allowed', FIVE)
for first, second in [(0, 1), (1, 4), (2, 3)]:
    account(STEPS[second], disabled=True)
    check(f'G6 {second}', FIVE)
    account(STEPS[first], disabled=True)
    check(f'G6 {first}', FIVE)
    account(STEPS[second])
    check(f'G6 {first}', FIVE)
    account(STEPS[first])
introspect('active', FIVE, AT + 100)
account(BUILDER, disabled=True)
for token, want in [(BUILT, 'G6 0'), (BUILT_AT_B, 'G6 0'), (DEPLOYED, 'G6 0'), (HELPED, 'G6 0'), (AGAIN, 'G6 0'), (FIVE, 'allowed')]:
    check(want, token)
account(HELPER, disabled=True)
check('G6 0', HELPED)
account(BUILDER)
for token, want in [(BUILT, 'allowed'), (DEPLOYED, 'G9'), (HELPED, 'G6 2'), (AGAIN, 'G6 2')]:
    check(want, token)
account(HELPER)
check('allowed', AGAIN)
puts({'kind': 'pool', 'project': '1234', 'pool': 'ci-pool', 'disabled': True})
check('G5 0', FIVE)
generates('I7', FIVE)
generates('I7', ROOT)
account(ONE, disabled=True)
check('G5 0', FIVE)
puts({'kind': 'pool', 'project': '1234', 'pool': 'ci-pool'})
check('G6 0', FIVE)
check('G6 0', FIVE, permission='a.b.c', resource=SIBLING)
account(ONE)
check('G9', FIVE, permission='a.b.c')
check('G9', FIVE, resource=SIBLING)
puts(dict(GITHUB, disabled=True))
check('allowed', FIVE)
generates('issued', ROOT)
puts(GITHUB)

# Payloads under the service's key that it didn't write: accounts and actors of their form are decided, known or not.
OF_BUILDER = {'who': {'account': BUILDER}}
for want, accounts in [('allowed', []), ('allowed', [BUILDER]), ('allowed', [BUILDER, *STEPS]), ('allowed', [BUILDER] * 40), ('G6 0', [NONE]),
                       ('G6 1', [BUILDER, NONE]), ('G6 39', [BUILDER] * 39 + [NONE]), ('G3', ['builder']), ('G3', [BUILDER, None]),
                       ('G3', [member(BUILDER)]), ('G3', BUILDER), ('G3', {BUILDER: 1}), ('G3', [[BUILDER]])]:
    check(want, access(sub=member(BUILDER), wif=dict(OF_BUILDER, accounts=accounts)))
FORGED = access(sub=member(BUILDER), wif=dict(OF_BUILDER, accounts=[BUILDER]))
introspect('inactive', FORGED)
generates('I7', FORGED)
narrows('E21', None, FORGED, AT + 100)
for want, name, value in [('allowed', 'act', {'sub': member(NONE)}), ('allowed', 'act', {'act': {'sub': member(NONE)}, 'sub': f'principal://{PATH}/subject/x'}),
                          ('allowed', 'may_act', {'sub': 'x'}), ('allowed', 'may_act', {'may_act': {'sub': 'y'}, 'sub': member(NONE)}),
                          ('G3', 'act', {'sub': 'builder'}), ('G3', 'act', {}), ('G3', 'act', []), ('G3', 'act', member(BUILDER)), ('G3', 'act', {'sub': 7}),
                          ('G3', 'act', {'sub': member(BUILDER), 'wif': {}}), ('G3', 'act', {'act': None, 'sub': member(BUILDER)}),
                          ('G3', 'act', {'may_act': {'sub': member(BUILDER)}, 'sub': member(BUILDER)}), ('G3', 'may_act', {'act': {'sub': 'x'}, 'sub': 'x'}),
                          ('G3', 'may_act', {'may_act': {}, 'sub': 'x'}), ('G3', 'may_act', {'sub': 'x', 'may_act': {'sub': 'y'}})]:
    check(want, access(sub=member(BUILDER), wif=OF_BUILDER, **{name: value}))

# The words of a service account's token: its own, behind those of the tokens before; each list has to allow.
puts(policy((EDITOR, [REPOSITORY, member(BUILDER)], None)))
WORDED = impersonate(ROOT, BUILDER, scope='read write')
for scope, of_get, of_create in [('read', 'allowed', 'G7 2'), ('write', 'G7 2', 'allowed'), (EVERY, 'allowed', 'allowed'), ('a', 'G7 2', 'G7 2')]:
    token = narrow(WORDED, at=AT + 100, scope=scope)
    check(of_get, token)
    check(of_create, token, permission=CREATE)
check('G7 1', WORDED, permission='a.b.c')
introspect('active', narrow(WORDED, at=AT + 100))
READS = narrow(ROOT, scope='read reach')
token = impersonate(READS, BUILDER)
check('allowed', token)
check('G7 1', token, permission=CREATE)
token = impersonate(READS, BUILDER, scope='write')
check('G7 2', token)
check('G7 1', token, permission=CREATE)
for permissions, want in [([], 'G7 1'), ([CREATE], 'G7 1'), ('*', 'allowed'), ([GET], 'allowed')]:
    puts({'kind': 'scope', 'scope': 'read', 'permissions': permissions})
    check(want, WORDED)
token = impersonate(narrow(ROOT, rule(EDITOR), rule(CREATOR, at=IAM)), BUILDER)
for permissions, of_get, of_create in [([GET], 'allowed', 'G8 0'), ([CREATE], 'G8 0', 'allowed'), ([], 'G8 0', 'G8 0'),
                                       ([GET, CREATE], 'allowed', 'allowed')]:
    puts({'kind': 'role', 'role': EDITOR, 'permissions': permissions})
    check(of_get, token)
    check(of_create, token, permission=CREATE)

# The life of a service account's token: to the end of the bearer's, and as long as was asked at most.
exchange('issued', subject(dict(FULL, exp=AT + 7200)))
HOUR = latest(exp=AT + 3600)
for at, seconds, end in [(AT, 3600, AT + 3600), (AT + 1, 3600, AT + 3600), (AT - 1, 3600, AT + 3599), (AT + 3599, 3600, AT + 3600),
                         (AT + 3000, 600, AT + 3600), (AT + 3000, 599, AT + 3599), (AT + 3000, 601, AT + 3600), (AT, 1, AT + 1)]:
    token = impersonate(HOUR, BUILDER, at=at, lifetime=seconds)
    introspect('active', token, end - 1)
    introspect('inactive', token, end)
for lifetime in (..., None):
    generates('issued', HOUR, at=AT - 600, lifetime=lifetime)
    introspect('active', impersonated(HOUR, BUILDER, at=AT - 600), AT + 2999)
    introspect('inactive', impersonated(HOUR, BUILDER, at=AT - 600), AT + 3000)
MINUTE = impersonate(HOUR, BUILDER, lifetime=60)
token = narrow(MINUTE, at=AT + 100)
check('allowed', token, AT + 159)
check('G4', token, AT + 160)
reach(DEPLOY, member(BUILDER))
token = impersonate(MINUTE, DEPLOY, at=AT + 130)
introspect('active', token, AT + 159)
introspect('inactive', token, AT + 160)
generates('I7', MINUTE, DEPLOY, AT + 160)

# The moment at which it ends, as a date: at the ends of months and years, in leap years and others.
for end in (1, 3600, 5097600, 68255999, 68256000, 94694399, 94694400, 951868799, 951868800, 1582934400):
    generates('issued', HOUR, at=end - 1, lifetime='1s')
for end in (4107542400, 200000003600):
    exchange('issued', subject(dict(FULL, exp=2 ** 53 - 1)), end - 3600)
    token = impersonate(latest(at=end - 3600, exp=end), BUILDER, at=end - 3600)
    introspect('active', token, min(end - 1, 200000000000))

# A chain has eight tokens at most.
reach(BUILDER, REPOSITORY, member(BUILDER))
CHAIN = [ROOT]
for number in range(1, 8):
    CHAIN.append(impersonate(CHAIN[-1], BUILDER))
    introspect('active', CHAIN[-1], AT + 100)
check('allowed', CHAIN[-1])
generates('I10', CHAIN[-1])
generates('I10', CHAIN[-1], lifetime='1s', scope=['read'])
by('I10', BUILDER, BUILDER, token=CHAIN[-1])
generates('I9 0', CHAIN[-1], HELPER)
generates('I8 0', CHAIN[-1], NONE)
generates('I7', CHAIN[-1], at=AT + 900)
generates('I6', CHAIN[-1], lifetime='0s')
generates('I5', CHAIN[-1], scope=[])
narrows('E24', None, CHAIN[-1], AT + 100)
bounds('E24', *AT_A, token=CHAIN[-1], at=AT + 100)
generates('I10', impersonate(CHAIN[-2], BUILDER, scope=EVERY))
generates('I9 0', impersonate(CHAIN[-2], BUILDER, scope='read'))
generates('I10', narrow(CHAIN[-2], at=AT + 100))
account(BUILDER, disabled=True)
check('G6 0', CHAIN[-1])
generates('I7', CHAIN[-1])
account(BUILDER)

# The longest token: 8,192 bytes. Too many links are told before too many bytes.
WIDE = [LONGEST] * 16
ROOM = 6083 - len(compact(told(impersonated(narrower(ROOT, rule(CREATOR, at=IAM, text='true')), BUILDER, scope=' '.join(WIDE)))))
for want, more in [('issued', 0), ('I11', 1)]:
    token = narrow(ROOT, rule(CREATOR, at=IAM, text='true' + ' ' * (ROOM + more)))
    generates(want, token, scope=WIDE)
    if want == 'issued':
        introspect('active', impersonated(token, BUILDER, scope=' '.join(WIDE)))
    generates('I9 0', token, HELPER, scope=WIDE)
generates('I10', narrow(CHAIN[-2], rule(CREATOR, at=IAM, text='true' + ' ' * ROOM)), scope=WIDE)
