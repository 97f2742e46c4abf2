"""The first exchange, introspection, commands and checks, and the payloads that a check takes or doesn't."""
import json

from model import ACCESS, EVERY, GENERATE, OAUTH, nested
from signing import AT, compact, encoded, exchange_pairs, form

from .requests import (ADMIN, BUCKET, BUILDER, FIRST, FULL, GATE, GET, ID_TOKEN, ISSUER, NAME, OTHER, OUTSIDE, OWN, PATH, START,
                       SUBJECT, VIEWER, access, actors, add, admin, asks, check, checks, claims, exchange, facts, grant, introspect,
                       subject)

# An exchange, its introspections at the end of its life, and two refusals.
exchange('issued', subject(FULL))
introspect('active', FIRST, AT + 899)
introspect('inactive', FIRST, AT + 900)
exchange('E16 Base64 2', subject(FULL)[:-2])
exchange('E25', subject(dict(FULL, may_act=actors(8, 'm' * 1024))))

# Paths without a route.
for path, bearer, body in [('/v1/none', '-', ''), ('/', '-', ''), ('/v1/introspect/', GATE, 'token=a'), ('/v1/introspectx', GATE, 'token=a'),
                           ('/V1/introspect', GATE, 'token=a'), ('x/v1/introspect', GATE, 'token=a'), ('/v1/none?/v1/introspect', GATE, 'token=a'),
                           ('?', '-', ''), (GENERATE + 'a:generateAccessToken/', '-', ''),
                           ('/v1/projects/1/serviceAccounts/a:generateAccessToken', '-', ''), (GENERATE + 'a?b:generateAccessToken', '-', ''),
                           (GENERATE, '-', ''), ('/' * 2048, '-', '')]:
    add('H4', path, bearer, 0, body)

# A request to each route that is refused.
add('E4', '/v1/token', '-', AT, 'grant_type=x')
add('E3', '/v1/token?a=b', '-', AT, '')
add('U1', '/v1/check', '-', 0, '')
add('A2', '/v1/admin', ADMIN, 0, '{}')
add('I1', GENERATE + ':generateAccessToken', '-', 0, '')
add('I1', GENERATE + 'a/b%40c:generateAccessToken', '-', 0, '')
add('I1', GENERATE + 'a:generateAccessToken?x', '-', 0, '')

# The bearer of an introspection, and its form.
for bearer in ('-', ADMIN, GATE + '1', GATE[:-1], 'G' + GATE[1:], 'v' * 8192, '--'):
    asks('U1', 'token=a', bearer)
asks('U1', 'token=%FF', '-')
for body in ('token=%FF', 'token=a&colour=%C0', 'tok%FFen=a', 'token=%EF%BF%BD', 'token=\ufffd', 'token=a&token=b&%FF=', 'colour=%ED%A0%80',
             'token=a&colour=x\ufffdx', b'token=a\xff'):
    asks('N1', body)
for body in ('', 'token', 'token=', 'token=a&token=b', 'token=a&token=a', 'Token=a', 'token%3Da', 'token=a&t%6Fken=b'):
    asks('N2', body)
for body in ('token=a', 'token=a&token=', 'token=&token=a&colour=red', 't%6Fken=a', '&&token=a+b&'):
    asks('inactive', body)
asks('inactive', 'token=a', at=200000000000, path='/v1/introspect?token=b')
asks('inactive', 'token=' + 'a' * 65530, at=0)
asks('inactive', 'token=a\n', at=0)

# The subject, the size of the token, and the moments of a subject token.
exchange('issued', subject(claims(sub='s' * 127)))
exchange('E19 TooLong google.subject', subject(claims(sub='s' * 128)))
exchange('E19 Subject', subject(claims(sub=None)))
exchange('E19 Subject', subject(claims(sub=None) | {'sub': 7}))
exchange('E19 Subject', subject(claims(sub=None) | {'sub': ''}))
exchange('issued', subject(claims(sub='caf\u00e9 "x"\t\\')))
exchange('issued', subject(claims(may_act=actors(6, 'a' * 1024, 'a' * 342))))
exchange('E25', subject(claims(may_act=actors(6, 'a' * 1024, 'a' * 343))))
exchange('E18 Expired', subject(claims(exp=AT)))
exchange('issued', subject(claims(exp=AT + 1)))
exchange('E18 NotYet', subject(claims(nbf=AT + 1)))
exchange('issued', subject(claims(nbf=AT)))
exchange('issued', subject(claims(exp=AT + 7200)))
introspect('active', access(jti='6', exp=AT + 3600), AT + 3599)
introspect('inactive', access(jti='6', exp=AT + 3600), AT + 3600)

# The audience and the issuer.
exchange('issued', subject(claims(aud=['x', NAME])))
exchange('issued', subject(claims(aud=['x', 'https:' + NAME])))
exchange('issued', subject(claims(aud='https:' + NAME)))
for audience in (['x'], [], 'http:' + NAME, NAME + '/', 'https:https:' + NAME):
    exchange('E18 Audience', subject(claims(aud=audience)))
exchange('E18 Issuer', subject(claims(iss=START['issuer'] + '/')))
exchange('E18 Issuer', subject(claims(iss='x', aud='x', exp=AT)))
exchange('E18 Audience', subject(claims(aud='x', exp=AT)))

# Faults of the signature, in the order of its rules.
exchange('E16 Alg', subject(header='{"alg":"none"}'))
exchange('E16 Crit', subject(header='{"alg":"HS256","crit":["b64"]}'))
exchange('E16 Header', subject(header='x'))
exchange('E16 Parts', 'a.b')
exchange('E16 Parts', subject() + '.')
exchange('E16 Mac', subject(key=OWN))
exchange('E16 Base64 0', '=' + subject())
exchange('E16 Base64 1', '=.'.join(subject().rsplit('.', 1)))
exchange('E16 Base64 2', subject()[:-1])

# Faults of the claims.
exchange('E17 Json', subject('{'))
exchange('E17 NotObject', subject('[]'))
exchange('E17 Iss', subject(claims(iss=None)))
for fault, change in [('Aud', {'aud': 7}), ('Exp', {'exp': 'x'}), ('Nbf', {'nbf': -1}), ('Iat', {'iat': 1.5}), ('MayAct', {'may_act': 'x'}),
                      ('Exp', {'exp': 2 ** 53})]:
    exchange('E17 ' + fault, subject(claims(**change)))

# A parameter without a value counts as absent. The audience names one known provider.
for name, want in [('requested_token_type', 'E7'), ('actor_token', 'E8'), ('actor_token_type', 'E8'), ('resource', 'E10'), ('scope', 'E11'),
                   ('options', 'E12 Json')]:
    exchange(want, tail=f'&{name}=x')
    exchange('issued', tail=f'&{name}=')
for (name, value), (without, twice) in zip(exchange_pairs(START, subject()),
                                           [('E3', 'E2'), ('E14', 'E14'), ('E5', 'E2'), ('E6', 'E2')], strict=True):
    exchange(without, **{name: None})
    exchange(twice, tail='&' + form([(name, value)]))
exchange('E4', grant_type=OAUTH + 'grant-type:jwt-bearer')
for audience in (NAME + 'x', 'https:' + NAME, NAME[:-1], 'github'):
    exchange('E14', audience=audience)
exchange('E16 Parts', 'a.b', subject_token_type=ID_TOKEN)
exchange('E14', subject_token_type=ACCESS)
exchange('E21', subject_token_type=ACCESS, audience=None)
exchange('E6', subject_token_type=OAUTH + 'token-type:saml2')
exchange('E14', subject_token_type=ACCESS, audience=NAME + 'x')
exchange('E1', tail='&colour=%FF')
exchange('E11', tail='&scope=x', audience=NAME + 'x')
exchange('issued', tail='&colour=red')

# Only the very text that was issued is active.
introspect('active', FIRST, AT + 899)
introspect('inactive', subject())
introspect('inactive', FIRST[:-1] + 'A')
introspect('inactive', access(jti='1'))
introspect('inactive', access(header='{"typ":"JWT","alg":"HS256"}', jti='0'))
introspect('inactive', access(jti='00'))
introspect('inactive', access(jti='4294967296'))
introspect('inactive', '.' + FIRST)
introspect('active', FIRST, AT + 899, '&token=')

# Commands: the bearer, the object, the kind, and each member.
admin('U1', {'kind': 'pool'}, '-')
admin('U1', {'kind': 'pool'}, GATE)
admin('U1', '', ADMIN + 'x')
admin('U1', '', ADMIN[:-1])
for body in ('', '[]', '"pool"', 'null', '{"kind":"pool"', '{"kind":"pool"} x', b'\xff', b'{"kind":"\xff"}'):
    admin('A1', body)
admin('A2', '{}')
for kind in (1, None, 'federated', 'narrow', 'Pool', 'pools', ''):
    admin('A2', {'kind': kind})
for member, command in [
    ('project', {'kind': 'provider'}),
    ('provider', {'kind': 'provider', 'project': '1234', 'pool': 'ci-pool'}),
    ('project', {'kind': 'pool'}),
    ('project', {'kind': 'pool', 'project': '0'}),
    ('project', {'kind': 'pool', 'project': 1234, 'pool': 'ci-pool'}),
    ('pool', {'kind': 'pool', 'project': '1234'}),
    ('pool', {'kind': 'pool', 'project': '1234', 'pool': 'ci'}),
    ('project', {'kind': 'pool', 'pool': 'ci', 'disabled': 1}),
    ('disabled', {'kind': 'pool', 'project': '1234', 'pool': 'ci-pool', 'disabled': 'true'}),
    ('disabled', {'kind': 'pool', 'project': '1234', 'pool': 'ci-pool', 'disabled': None}),
    ('email', {'kind': 'account'}),
    ('email', {'kind': 'account', 'email': 'a@b.example.com'}),
    ('disabled', {'kind': 'account', 'email': BUILDER, 'disabled': 0}),
    ('role', {'kind': 'role', 'permissions': []}),
    ('role', {'kind': 'role', 'role': 'roles/'}),
    ('permissions', {'kind': 'role', 'role': 'roles/x'}),
    ('permissions', {'kind': 'role', 'role': 'roles/x', 'permissions': '*'}),
    ('permissions', {'kind': 'role', 'role': 'roles/x', 'permissions': ['a.b.c'] * 257}),
    ('permissions', {'kind': 'role', 'role': 'roles/x', 'permissions': ['a.b']}),
    ('scope', {'kind': 'scope', 'permissions': '*'}),
    ('scope', {'kind': 'scope', 'scope': 'a b', 'permissions': '*'}),
    ('permissions', {'kind': 'scope', 'scope': 's'}),
    ('permissions', {'kind': 'scope', 'scope': 's', 'permissions': '**'}),
    ('resource', {'kind': 'policy'}),
    ('bindings', {'kind': 'policy', 'resource': '//a', 'bindings': {}}),
    ('resource', {'kind': 'policy', 'resource': '//a/', 'bindings': []}),
    ('bindings', {'kind': 'policy', 'resource': '//a', 'bindings': [{'role': 'roles/x'}]}),
    ('bindings', {'kind': 'policy', 'resource': '//a', 'bindings': [{'role': 'roles/x', 'members': ['allUsers']}]}),
    ('bindings', {'kind': 'policy', 'resource': '//a', 'bindings': [{'role': 'roles/x', 'members': []}] * 65}),
    ('bindings', {'kind': 'policy', 'resource': '//a', 'bindings': [{'role': 'roles/x', 'members': [f'principalSet://{PATH}/*'] * 65}]}),
]:
    admin('A3 ' + member, command)
admin('A3 resource', {'kind': 'policy', 'bindings': [{'condition': None}]})
admin('A4', {'kind': 'policy', 'resource': '//a', 'bindings': [{'role': 'roles/x', 'members': [], 'condition': {'expression': 'true'}}]})
admin('A3 bindings', {'kind': 'policy', 'resource': '//a', 'bindings': ['condition']})
admin('A3 bindings', {'kind': 'policy', 'resource': '//a', 'condition': None, 'bindings': 1})

# A role, an exchange and a policy; then checks of the token at its edges.
grant('A4', f'principalSet://{PATH}/*')
admin('entry 17', {'kind': 'role', 'role': VIEWER, 'permissions': [GET]})
SORTED = subject({name: FULL[name] for name in sorted(FULL)})
exchange('issued', SORTED)
check('G9')
grant('entry 19', f'principalSet://{PATH}/*')
check('allowed')
check('allowed', resource=BUCKET + '/objects/x')
check('G9', resource=BUCKET[:-1] + 'b')
check('G9', resource=BUCKET + 'b')
check('G9', permission='storage.objects.put')
check('allowed', at=AT + 899)
check('G4', at=AT + 900)
check('allowed', at=0)
check('G4', at=200000000000)
for bearer in ('-', ADMIN, GATE + 'x'):
    check('U1', bearer=bearer)
for body in ('', '[]', '"a"', '{'):
    checks('C1', body)
checks('C2', '{}')
check('C2', 1)
checks('C3', '{"token":"a"}')
check('C3', 'a', permission='a.b')
checks('C4', compact({'token': 'a', 'permission': GET}))
check('C4', 'a', resource=BUCKET + '/')
check('C3', '', permission=None)

# Texts without a signed shape, and with a wrong MAC.
for text in ('', 'a.b', '....', access()[:-2]):
    check('G1', text)
FRONT = access().rpartition('.')[0] + '.'
for text in (FRONT, FRONT + encoded(b'0' * 32), FRONT + encoded(b'0' * 31), access(key=OUTSIDE)):
    check('G2', text)
check('G1', access(header='{"alg":"none","typ":"JWT"}'))
check('G1', access(header='[]'))
check('G1', access(header='{"alg":"HS256","crit":[]}'))

# Payloads under the service's key that it does and doesn't write.
check('G3', access('{}'))
check('G3', access('x'))
check('allowed', access(header='{"typ":"JWT","alg":"HS256"}'))
check('allowed', access(jti='4294967295'))
check('G3', access(jti='4294967296'))
check('G3', access(jti='00'))
check('G3', access(jti=0))
check('allowed', access(exp=2 ** 53 - 1), at=200000000000)
check('G3', access(exp=2 ** 53))
check('G3', access(iss=ISSUER + 'x'))
check('G3', access(more=1))
check('G3', access(iat=None))
check('G3', access(scope='other'))
check('allowed', access(sub=f'principal://{PATH}/subject/x'))
check('G3', access(sub=f'principalSet://{PATH}/*'))
check('G3', access(wif={'bounds': [[]]}))
check('G3', access(wif={'scopes': []}))
check('allowed', access(wif={'pools': []}))
check('G5 1', access(wif={'pools': ['1234/ci-pool', '1234/no-pool']}))
check('G6 0', access(wif={'accounts': [OTHER]}))
check('G7 1', access(wif={'scopes': [EVERY, 'unknown', EVERY]}))
check('allowed', access(wif={'scopes': ['a ' + EVERY, EVERY]}))
check('G3', access(wif={'scopes': ['a  b', EVERY]}))
check('allowed', access(act=nested('act', ['serviceAccount:' + OTHER] * 8)))
check('G3', access(act=nested('act', ['serviceAccount:' + OTHER] * 9)))
check('G3', access(act={'sub': 'x'}))
check('allowed', access(may_act={'sub': 'x'}))
check('allowed', access(may_act={'sub': 'x' * 1024}))
check('G3', access(may_act={'sub': 'x' * 1025}))
check('G9', access(sub='serviceAccount:' + BUILDER, wif={'who': {'account': BUILDER}}))
check('G3', access(json.dumps(facts())))
check('G3', access(compact(dict(reversed(facts().items())))))
check('G3', access(compact(facts())[:-1] + f',"exp":{AT + 900}}}'))
check('G3', access(compact(facts()).replace('"pool":"1', '"pool":"\\u0031')))

# Payloads under the service's key with one change each: one that the service would write is decided, and any other is G3.
ACCOUNT_NAME = 'a@p.iam.gserviceaccount.com'


def of_account(scopes=('read',), scope=None, **changes):
    return facts(exp=9, iat=3, jti='7', scope=scopes[-1] if scope is None else scope, sub='serviceAccount:' + ACCOUNT_NAME,
                 wif={'pools': [], 'scopes': list(scopes), 'who': {'account': ACCOUNT_NAME}}, **changes)


def of_subject(subject='s', **who):
    inner = dict({'attributes': {}, 'groups': [], 'pool': '1/pool', 'subject': subject}, **who)
    path = 'principal://iam.googleapis.com/projects/1/locations/global/workloadIdentityPools/pool/subject/'
    return facts(exp=9, iat=3, jti='7', scope='read', sub=path + subject, wif={'pools': ['1/pool'], 'scopes': ['read'], 'who': inner})


def decided(want, payload):
    check(want, access(payload), at=5)


def edits(payload, changes):
    text = compact(payload)
    for want, old, new in changes:
        if old not in text:
            raise ValueError(old)
        decided(want, text.replace(old, new, 1))


for payload in ('', '{', '[]', 'null'):
    decided('G3', payload)
decided('G7 0', of_account())
decided('G5 0', of_subject())
decided('G5 0', of_subject('Zo\u00eb', groups=['one', 'two'], attributes={'area': 'x', 'team': 'a\tb', 'zone': '7'}))
PRINCIPAL = f'principal://{PATH}/subject/s'
for count, want in [(8, 'G7 0'), (9, 'G3')]:
    decided(want, of_account(act=nested('act', ['serviceAccount:' + ACCOUNT_NAME] * count)))
    decided(want, of_account(may_act=nested('may_act', ['x'] * count)))
for want, actor in [('G7 0', PRINCIPAL), ('G3', f'principalSet://{PATH}/group/g'), ('G3', 'a')]:
    decided(want, of_account(act={'sub': actor}))
decided('G3', of_account(may_act={'sub': ''}))
decided('G3', of_account(act={'iss': 'x', 'sub': 'serviceAccount:' + ACCOUNT_NAME}))
SIXTEEN = 'a b c d e f g h i j k l m n o p'
for want, scopes in [('G7 0', [SIXTEEN]), ('G3', [SIXTEEN + ' q']), ('G3', [SIXTEEN + ' q', 'a']), ('G3', ['a  b']), ('G3', ['']),
                     ('G7 0', ['w' * 128]), ('G3', ['w' * 129])]:
    decided(want, of_account(scopes))
decided('G3', of_account((), scope=''))
decided('G3', of_account(('read write', 'write'), scope='read write'))
edits(of_account(), [
    ('G3', '9,', '9, '),  # a blank between members
    ('G3', '}}}', '}}} '),  # a blank behind the text
    ('G3', 'bounds":', 'bounds":\n'),  # a line break inside wif
    ('G3', 'exp":9,"iat":3', 'iat":3,"exp":9'),  # another order
    ('G3', 'accounts":[],"bounds', 'bounds":[],"accounts'),  # another order inside wif
    ('G3', '9,"iat', '9,"exp":9,"iat'),  # a member twice
    ('G3', 'exp":9', 'exp":8,"exp":9'),  # a member twice, the first of them another
    ('G3', 'exp":9,"iat', 'iat'),  # no exp
    ('G3', 'iat":3,"iss', 'iss'),  # no iat
    ('G3', 'iss":"https://sts.example","jti', 'jti'),  # no iss
    ('G3', 'jti":"7","scope', 'scope'),  # no jti
    ('G3', 'scope":"read","sub', 'sub'),  # no scope
    ('G3', 'sub":"serviceAccount:a@p.iam.gserviceaccount.com","wif', 'wif'),  # no sub
    ('G3', 'accounts":[],"bounds', 'bounds'),  # no accounts
    ('G3', 'bounds":[],"pools', 'pools'),  # no bounds
    ('G3', 'pools":[],"scopes', 'scopes'),  # no pools
    ('G3', 'scopes":["read"],"who', 'who'),  # no scopes
    ('G3', ',"who":{"account":"a@p.iam.gserviceaccount.com"}', ''),  # no who
    ('G3', ',"wif":{"accounts":[],"bounds":[],"pools":[],"scopes":["read"],"who":{"account":"a@p.iam.gserviceaccount.com"}}', ''),  # no wif
    ('G3', '7","scope', '7","kid":"k","scope'),  # a member more
    ('G3', 'who":{"account', 'who":{"aaa":1,"account'),  # a member more inside who
    ('G7 0', 'serviceAccount:a', 'serviceAccount:b'),  # a name of another subject
    ('G7 0', '9', '9007199254740991'),  # exp 2^53 - 1
    ('G3', '9', '9007199254740992'),  # exp 2^53
    ('G7 0', '3', '9007199254740991'),  # iat 2^53 - 1
    ('G3', '3', '9007199254740992'),  # iat 2^53
    ('G3', 'exp":9', 'exp":-9'),  # exp below 0
    ('G3', '9', '9.0'),  # exp with a fraction
    ('G3', '9', '9e0'),  # exp with an exponent
    ('G3', '9', '"9"'),  # exp as a text
    ('G3', 'example', 'exampla'),  # another issuer
    ('G3', 'bounds":[', 'bounds":[[]'),  # a boundary
    ('G3', 'bounds":[]', 'bounds":null'),  # bounds null
    ('G7 0', '7', '0'),  # jti 0
    ('G3', '7', '00'),  # jti 00
    ('G3', 'jti":"7', 'jti":"07'),  # jti 07
    ('G3', '7', '4294967296'),  # jti 2^32
    ('G3', 'jti":"7', 'jti":"+7'),  # jti with a sign
    ('G3', '7', 'a'),  # jti with a letter
    ('G3', '7', ''),  # jti empty
    ('G3', '"7"', '7'),  # jti a number
    ('G3', ':"a', ':"\\u0061'),  # a letter escaped
    ('G3', 'https:/', 'https:\\/\\'),  # a slash escaped
    ('G3', 'accounts":[', 'accounts":["a@p"'),  # an account of another form on the way
    ('G3', 'pools":[', 'pools":["01/pool"'),  # a pool of another form
])
decided('G5 0', of_subject('s' * 127))
decided('G3', of_subject('s' * 128))
edits(of_subject(), [
    ('G3', 'groups":[', 'groups":[""'),  # an empty group
    ('G3', 'attributes":{', 'attributes":{"Team":"x"'),  # an attribute name with a capital
    ('G3', 'attributes":{', 'attributes":{"team":""'),  # an empty attribute value
    ('G3', 'attributes":{', 'attributes":{"b":"2","a":"1"'),  # attributes in another order
    ('G3', 'who":{"attributes', 'who":{"account":"a@p.iam.gserviceaccount.com","attributes'),  # both an account and a subject
])

# Texts by their shape and their MAC, over that payload.
PLAIN = access(of_account())
check('G7 0', access(of_account(), '{ "typ": "JWT", "alg": "HS256" }'), at=5)
check('G3', access(compact(of_account()).replace('9,', ' 9,', 1), '{"alg":"HS256"}'), at=5)
check('G1', access(of_account(), '{"typ":"JWT"}'), at=5)
check('G1', PLAIN + '=', at=5)
check('G1', PLAIN.rpartition('.')[0], at=5)
check('G1', PLAIN + '.', at=5)
check('G2', access(dict(of_account(), exp=10)).rpartition('.')[0] + '.' + PLAIN.rpartition('.')[2], at=5)

# What is put again changes the next answer: scope words, roles, policies, pools.
for number, permissions, want in [(20, [], 'G7 0'), (21, ['a.b.c'], 'G7 0'), (22, ['a.b.c', GET], 'allowed'), (23, '*', 'allowed')]:
    admin(f'entry {number}', {'kind': 'scope', 'scope': EVERY, 'permissions': permissions})
    check(want)
    if number == 20:
        introspect('active', access(), AT + 100)
for number, permissions, want in [(24, [], 'G9'), (25, ['a.b.c', GET], 'allowed')]:
    admin(f'entry {number}', {'kind': 'role', 'role': VIEWER, 'permissions': permissions})
    check(want)
grant('entry 26', f'principal://{PATH}/subject/other')
check('G9')
grant('entry 27', f'principal://{PATH}/subject/other', f'principal://{PATH}/subject/{SUBJECT}')
check('allowed')
admin('A4', {'kind': 'policy', 'resource': BUCKET, 'bindings': [{'role': 'roles/none', 'members': []}]})
check('allowed')
admin('entry 28', {'kind': 'account', 'email': BUILDER})
admin('entry 29', {'kind': 'account', 'email': BUILDER, 'disabled': True, 'more': 1})
admin('entry 30', {'kind': 'pool', 'project': '1235', 'pool': 'ci-pool', 'disabled': True})
check('allowed')
admin('entry 31', {'kind': 'pool', 'project': '1234', 'pool': 'ci-pool', 'disabled': True})
check('G5 0')
check('G4', at=AT + 900)
introspect('inactive', access(), AT + 100)
exchange('E15', SORTED, AT + 100)
admin('entry 32', {'kind': 'pool', 'disabled': True, 'project': '1234', 'pool': 'ci-pool'})
exchange('E15', SORTED, AT + 100)
admin('entry 33', '{"disabled":true,"kind":"role","kind":"pool","pool":"ci-pool","project":"1234","disabled":false}')
check('allowed')
introspect('active', access(), AT + 100)
exchange('issued', SORTED, AT + 100)
introspect('active', access(jti='18', iat=AT + 100), AT + 100)
check('allowed', access(jti='18', iat=AT + 100))
