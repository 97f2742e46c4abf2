"""Providers that commands put: their members, mappings, conditions and audiences, and the conditions of bindings."""
from signing import AT, compact, encoded, form, provider_name

from .requests import (BUCKET, BUILDER, CREATOR, DEPLOY, FULL, GET, GITHUB, HELPER, ID_TOKEN, KEY, NAME, OWN, PATH, REPOSITORY, SUBJECT,
                       VIEWER, access, actors, admin, check, claims, conditional, exchange, introspect, latest, policy, puts, subject)

puts({'kind': 'pool', 'project': '1234', 'pool': 'ci-pool'})
BEFORE = access(jti='18', iat=AT + 100)
puts(GITHUB)
puts({'kind': 'role', 'role': VIEWER, 'permissions': [GET]})
puts({'kind': 'role', 'role': CREATOR, 'permissions': ['iam.serviceAccounts.getAccessToken']})
for email in (BUILDER, DEPLOY, HELPER):
    puts({'kind': 'account', 'email': email})
puts(policy((VIEWER, [REPOSITORY, 'serviceAccount:' + BUILDER], None)))
puts(policy((CREATOR, [REPOSITORY], None), at='//iam.googleapis.com/projects/-/serviceAccounts/' + BUILDER))
puts(policy((CREATOR, ['serviceAccount:' + BUILDER], None), at='//iam.googleapis.com/projects/-/serviceAccounts/' + DEPLOY))

# An exchange with a mapped attribute, its life, and the policy that names the attribute; tokens from before are as they were.
exchange('issued', subject(FULL))
T0 = latest()
introspect('active', T0, AT + 899)
check('allowed', T0, AT + 899)
check('G4', T0, AT + 900)
exchange('E18 Expired', subject(FULL), AT + 900)
introspect('active', BEFORE, AT + 899)
check('G9', BEFORE)
check('G9', T0, resource='//iam.googleapis.com/projects/-/serviceAccounts/' + BUILDER)
check('allowed', T0, permission='iam.serviceAccounts.getAccessToken', resource='//iam.googleapis.com/projects/-/serviceAccounts/' + BUILDER)
check('G9', T0, permission='iam.serviceAccounts.getAccessToken', resource='//iam.googleapis.com/projects/-/serviceAccounts/' + DEPLOY)
exchange('issued', subject(FULL), subject_token_type=ID_TOKEN)
introspect('active', latest())
exchange('issued', subject(FULL), tail='&audience=')
exchange('issued', subject(FULL), tail='&audience', subject_token_type=ID_TOKEN)
exchange('E14', subject(FULL), tail='&audience=x')
exchange('E14', subject(FULL), tail='&' + form([('audience', NAME)]), subject_token_type=ID_TOKEN)
exchange('E16 Mac', subject(FULL, key=OWN), subject_token_type=ID_TOKEN)

# The provider's condition, the first claim that is no text, and audiences in an array.
for owner in ('other', 'octo/', 'Octo', '', 7, True, ['octo'], {'octo': 'octo'}):
    exchange('E20 ConditionFalse', subject(dict(FULL, repository_owner=owner)))
exchange('E20 ConditionFalse', subject(dict(FULL, repository_owner=None)))
exchange('E20 ConditionError', subject({name: FULL[name] for name in FULL if name != 'repository_owner'}))
exchange('E20 ConditionError', subject(dict(FULL, repository_owner=1.5)))
exchange('E20 ConditionError', subject(dict(FULL, repository_owner=['octo', 1.5])))
exchange('issued', subject(dict(FULL, load=1.5)))
exchange('issued', subject(dict(FULL, aud=['x', 'https:' + NAME])))
puts(dict(GITHUB, mapping=dict(GITHUB['mapping'], **{'attribute.load': 'assertion.load'})))
exchange('E19 Attribute load', subject(dict(FULL, load=1.5)))
exchange('E19 Attribute load', subject(FULL))
exchange('E19 Attribute load', subject(dict(FULL, load=1)))
exchange('issued', subject(dict(FULL, load='1')))
introspect('active', latest({'attributes': {'load': '1', 'repository': 'octo/app'}}))

# Conditions of a provider: what they see, and the order of their errors. A number of JSON that is no integer of 64 bits counts
# wherever it stands in an operand.
BROKEN = dict(FULL, load=1.5)
for want, text, token in [
    ('issued', 'true', FULL), ('E20 ConditionFalse', 'false', FULL),
    ('issued', '"sub" in assertion', FULL), ('E20 ConditionError', '"sub" in assertion', BROKEN),
    ('E20 ConditionError', '"sub" in assertion', dict(FULL, load=[{'a': 18446744073709551616}])),
    ('E20 ConditionError', '"sub" in assertion', dict(FULL, load=9223372036854775808)),
    ('issued', '"sub" in assertion', dict(FULL, load=9223372036854775807)),
    ('issued', '"sub" in assertion', dict(FULL, load=-9223372036854775808)),
    ('issued', 'has(assertion.sub)', BROKEN), ('E20 ConditionFalse', 'has(assertion.subject)', BROKEN),
    ('issued', 'assertion.sub == "' + SUBJECT + '"', BROKEN), ('issued', 'size(assertion) == 8', BROKEN),
    ('E20 ConditionError', 'assertion == assertion', BROKEN), ('issued', 'assertion == assertion', FULL),
    ('issued', 'google.subject == assertion.sub', FULL), ('issued', 'google.groups == []', FULL), ('issued', 'size(google) == 2', FULL),
    ('issued', 'attribute.repository == "octo/app"', FULL), ('E20 ConditionError', 'attribute.owner == "octo"', FULL),
    ('issued', 'attribute.size() == 1 && "repository" in attribute', FULL), ('E20 ConditionError', 'google.name == "x"', FULL),
    ('issued', 'assertion.repository.startsWith("octo/")', FULL), ('E20 ConditionError', 'assertion.exp.startsWith("octo/")', FULL),
    ('issued', 'assertion.exp - assertion.iat == 900', FULL), ('E20 ConditionError', '1 / (assertion.exp - 1700000900) == 1', FULL),
    ('issued', 'true || assertion.none', FULL), ('issued', 'assertion.none || true', FULL), ('E20 ConditionFalse', 'assertion.none && false', FULL),
    ('E20 ConditionError', 'assertion.none || false', FULL), ('E20 ConditionError', 'assertion.sub', FULL),
    ('E20 ConditionError', 'assertion.exp', FULL),
    ('issued', 'assertion.flag', dict(FULL, flag=True)), ('E20 ConditionFalse', 'assertion.flag', dict(FULL, flag=False)),
    ('E20 ConditionError', 'assertion.flag', dict(FULL, flag='true')), ('E20 ConditionError', 'assertion.flag', dict(FULL, flag=None)),
    ('issued', 'assertion.ref in ["refs/heads/main", "refs/heads/next"]', dict(FULL, ref='refs/heads/next')),
    ('E20 ConditionFalse', 'assertion.ref in ["refs/heads/main"]', dict(FULL, ref='refs/heads/next')),
    ('issued', 'assertion.sub.extract("repo:{r}:") == assertion.repository', FULL),
    ('issued', 'assertion.all(k, k != "nbf")', FULL), ('E20 ConditionFalse', 'assertion.all(k, k != "nbf")', dict(FULL, nbf=AT)),
    ('issued', 'timestamp("2023-11-14T22:13:20Z") + duration("900s") == timestamp("2023-11-14T22:28:20Z")', FULL),
    ('E20 ConditionError', 'assertion.list.exists(x, x == 1)', dict(FULL, list=[0] * 257)),
    ('issued', 'assertion.list.all(x, x == 0)', dict(FULL, list=[0] * 256)),
]:
    puts(dict(GITHUB, condition=text))
    exchange(want, subject(token))
puts({name: GITHUB[name] for name in GITHUB if name != 'condition'})
exchange('issued', subject(dict(FULL, repository_owner='other')))

# A pool or provider that is disabled, and enabled again: the pool ends links, the provider none.
puts(GITHUB)
puts({'kind': 'pool', 'project': '1234', 'pool': 'ci-pool', 'disabled': True})
check('G5 0', T0, AT + 200)
introspect('inactive', T0, AT + 200)
exchange('E15', subject(FULL), AT + 200)
exchange('E15', 'a.b')
exchange('E14', 'a.b', audience=NAME + 'x')
puts({'kind': 'pool', 'project': '1234', 'pool': 'ci-pool'})
check('allowed', T0, AT + 200)
puts(dict(GITHUB, disabled=True))
check('allowed', T0, AT + 200)
introspect('active', T0, AT + 200)
exchange('E15', subject(FULL), AT + 200)
exchange('E15', 'a.b')
puts(GITHUB)
exchange('issued', subject(FULL), AT + 200)

# Commands of this kind: each member's form and edges, two at fault at once, and the order of the rules.
EDGES = {'kind': 'provider', 'project': '1234', 'pool': 'ci-pool', 'provider': 'edges', 'issuer': 'https://issuer.example', 'key': KEY,
         'audiences': [], 'mapping': {'google.subject': 'assertion.sub'}, 'condition': 'true', 'disabled': False}
ORDER = ('project', 'pool', 'provider', 'issuer', 'key', 'audiences', 'mapping', 'condition', 'disabled')


def edge(want, **changes):
    """A command with other members; it is taken where nothing is wanted."""
    command = dict(EDGES, **changes)
    puts(command) if want is None else admin(want, command)


edge(None)
for name in ORDER:
    left = {member: EDGES[member] for member in EDGES if member != name}
    puts(left) if name in ('audiences', 'condition', 'disabled') else admin('A3 ' + name, left)
    edge('A3 ' + name, **{name: None})
    edge('A3 ' + name, **{name: 7})
for first, second in zip(ORDER, ORDER[1:]):
    edge('A3 ' + first, **{first: None, second: None})
edge('A3 project', **dict.fromkeys(ORDER))
for name in ('mapping', 'condition'):
    edge('A3 ' + name, pool='no-pool', **{'mapping': {'google.subject': '1 +'}, 'condition': '1 +', name: None})
    edge('A3 disabled', disabled='true', mapping={'google.subject': '1 +'}, condition='1 +')
edge('A5 mapping', pool='no-pool', mapping={'google.subject': '1 +'}, condition='1 +')
edge('A5 condition', pool='no-pool', condition='1 +')
edge('A4', pool='no-pool')
edge('A4', project='1235', pool='no-pool')
edge('A4', project='9' * 19)
edge(None, more=None, Condition='1 +')
for project in ('', '0', '01', '-1', '1' * 20, ' 1234'):
    edge('A3 project', project=project)
for pool in ('', 'ci-', 'p' * 33, 'Ci-pool', 'ci_pool'):
    edge('A3 pool', pool=pool)
for provider in ('', 'git', 'p' * 33, 'Github', 'git_hub', 'git/hub'):
    edge('A3 provider', provider=provider)
for provider in ('gits', 'p' * 32, '0-0-'):
    edge(None, provider=provider)
edge('A3 issuer', issuer='')
for issuer in ('i', 'i' * 256, '\u00e9' * 128):
    edge(None, issuer=issuer)
for issuer in ('i' * 257, '\u00e9' * 128 + 'i'):
    edge('A3 issuer', issuer=issuer)
for size in (32, 33, 64, 65, 128):
    edge(None, key=encoded(b'k' * size))
for key in ('', encoded(b'k' * 31), encoded(b'k' * 129), KEY + '=', KEY[:-1], KEY[:-1] + 'B', KEY[:-1] + '+', ' ' + KEY):
    edge('A3 key', key=key)
for audiences in ([], ['a'] * 10, ['a' * 256], ['\u00e9' * 128], ['a', 'a']):
    edge(None, audiences=audiences)
for audiences in (['a'] * 11, ['a' * 257], ['\u00e9' * 128 + 'a'], [''], ['a', ''], [7], [None], 'a', {'a': 'a'}):
    edge('A3 audiences', audiences=audiences)
SUB = {'google.subject': 'assertion.sub'}


def attributes(count):
    return dict(SUB, **{f'attribute.a{number}': 'assertion.sub' for number in range(1, count)})


for mapping in (attributes(50), dict(SUB, **{'attribute.' + 'n' * 100: '"x"'}), dict(SUB, **{'attribute.0_a': '"x"'}),
                dict(SUB, **{'google.groups': '[]'})):
    edge(None, mapping=mapping)
for mapping in (attributes(51), dict(SUB, **{'attribute.' + 'n' * 101: '"x"'}), {}, [], 'assertion.sub', {'google.groups': '[]'},
                {'Google.subject': '"x"'}):
    edge('A3 mapping', mapping=mapping)
for key in ('google.name', 'google.subject ', 'attribute.', 'attribute.A', 'attribute.a-b', 'attribute', 'subject', '', 'google.groups.x'):
    edge('A3 mapping', mapping=dict(SUB, **{key: '"x"'}))
for value in (7, None, True, ['"x"'], {'expression': '"x"'}):
    edge('A3 mapping', mapping=dict(SUB, **{'attribute.a': value}))
for value in (['true'], {'expression': 'true'}, True):
    edge('A3 condition', condition=value)
for value in ('true', 0, 1, []):
    edge('A3 disabled', disabled=value)
admin('A1', compact(EDGES)[:-1])
puts(compact(EDGES)[:-1] + ',"condition":"1 +","condition":"true"}')
puts(compact(EDGES).replace('"mapping":{', '"mapping":{"google.subject":"1 +",'))
admin('A5 condition', compact(EDGES)[:-1] + ',"condition":"true","condition":"1 +"}')

# Expressions that are none, or whose type doesn't fit.
NO_TEXT = ('', ' ', '1 +', 'assertion.', 'assertion.sub == ', '"a', 'a b', '// a', 'assertion.in', 'assertion.sub)', '1.5', '9223372036854775808',
           'has(assertion)', '[1].all(1, true)', 'nobody', 'assertion.sub.matches("a")', 'foo("a")', 'size()', 'size("a", "b")', '1 + "a"',
           'assertion.x(1)', '"a".x')
for text in NO_TEXT:
    edge('A5 mapping', mapping=dict(SUB, **{'attribute.a': text}))
    edge('A5 condition', condition=text)
    admin('A5 bindings', policy((VIEWER, [], text)))
for text in ('1', 'true', 'null', '["a"]', 'assertion', '{"a": "a"}', 'assertion.sub == "a"', 'size(assertion.sub)', 'google.subject', 'attribute.a',
             'timestamp("2023-11-14T22:13:20Z")', 'request.time', 'true ? 1 : 2'):
    edge('A5 mapping', mapping=dict(SUB, **{'attribute.a': text}))
    edge('A5 mapping', mapping={'google.subject': text})
for text in ('"a"', '[1]', '[[]]', '{"a": ["a"]}', 'true', 'assertion.sub == ["a"]', 'assertion',
             '[timestamp("2023-11-14T22:13:20Z")]', 'google.groups'):
    edge('A5 mapping', mapping=dict(SUB, **{'google.groups': text}))
for text in ('["a"]', '[]', 'assertion.a', 'assertion.a.split(",")', '["a", assertion.a]', '["a", 1]',
             'assertion.a.filter(x, x)', 'assertion.a.map(x, x.a)'):
    edge(None, mapping=dict(SUB, **{'google.groups': text}))
for text in ('assertion.a', '"a"', 'string(assertion.a)', 'assertion.a + assertion.b', 'assertion.a ? "a" : assertion.b',
             'assertion["a"]', '["a"][0]', 'has(assertion.a) ? assertion.a : "a"', 'assertion.a.extract("{x}/")', '[assertion.a, "b"].join(".")'):
    edge(None, mapping=dict(SUB, **{'attribute.a': text}))
for text in ('1', '"true"', 'null', 'assertion', '[true]', 'google', 'attribute.a', 'attribute', 'attribute.a == 1',
             'attribute == ["a"]', 'size(google)', 'request.time > timestamp("2023-11-14T22:13:20Z")',
             'resource.name == ""', 'assertion.a + 1', 'google + google'):
    edge('A5 condition', condition=text)
for text in ('assertion.a', 'google.a', 'google.groups', 'google.subject == 1', 'attribute.a == assertion.a', 'attribute.a == "a"',
             'google.groups.exists(g, g == "a")', 'attribute.exists(a, a == "a")', 'assertion.a < assertion.b', '!assertion.a'):
    edge(None, condition=text)

# The limits of a text: its bytes, tokens, brackets, and macros inside one another.
for good, bad in [('"' + 'a' * 4094 + '"', '"' + 'a' * 4095 + '"'), ('"' + '\u00e9' * 2047 + '"', '"' + '\u00e9' * 2047 + 'a"'),
                  ('"a"' + ' + "a"' * 255, '"a"' + ' + "a"' * 256), ('(' * 32 + '"a"' + ')' * 32, '(' * 33 + '"a"' + ')' * 33)]:
    edge(None, mapping=dict(SUB, **{'attribute.a': good}))
    edge('A5 mapping', mapping=dict(SUB, **{'attribute.a': bad}))
for good, bad in [('true' + ' ' * 4092, 'true' + ' ' * 4093), ('true //' + 'a' * 4089, 'true //' + 'a' * 4090),
                  ('!' * 511 + 'true', '!' * 512 + 'true'),
                  ('true' + ' && true' * 255, 'true' + ' && true' * 256), ('(' * 32 + 'true' + ')' * 32, '(' * 33 + 'true' + ')' * 33),
                  ('[1].all(x, [x].all(y, y == 1))', '[1].all(x, [x].all(y, [y].all(z, z == 1)))'),
                  ('[[1].all(x, true)].all(y, [y].all(z, z))', '[1].map(x, [x].map(y, [y].exists(z, true))) == []')]:
    edge(None, condition=good)
    edge('A5 condition', condition=bad)
    puts(policy((VIEWER, [REPOSITORY], good), at='//limits.example'))
    admin('A5 bindings', policy((VIEWER, [REPOSITORY], bad), at='//limits.example'))

# Bindings with a condition: their form, their types, and the order of the rules.
for condition in (None, 7, True, 'true', [], ['true'], {}, {'expression': None}, {'expression': 7}, {'expression': ['true']}, {'Expression': 'true'}):
    admin('A3 bindings', {'kind': 'policy', 'resource': BUCKET, 'bindings': [{'role': VIEWER, 'members': [], 'condition': condition}]})
BINDING = {'role': VIEWER, 'members': [REPOSITORY]}
puts({'kind': 'policy', 'resource': BUCKET, 'bindings': [dict(BINDING, condition={'expression': 'true', 'title': 'x', 'more': None}, more=1)]})
check('allowed', T0)
for text in ('1', '"true"', 'null', 'resource', 'resource.name', 'request.time', 'request', 'resource.name == 1',
             'request.time < 5', 'request.time < "a"', 'request.time + 1 == request.time', 'assertion.sub == "a"',
             'google.subject == "a"', 'attribute.a == "a"', 'resource.name + 1 == "a"',
             'resource == request', 'resource.name.getHours() == 1', 'request.name == "a"', '[true]', 'true ? 1 : 2'):
    admin('A5 bindings', policy((VIEWER, [REPOSITORY], text)))
    check('allowed', T0)
admin('A5 bindings', policy((VIEWER, [], 'true'), (VIEWER, [], '1 +')))
admin('A5 bindings', policy(('roles/none', [], '1 +')))
admin('A5 bindings', policy(('roles/none', [], None), (VIEWER, [], '1 +')))
admin('A4', policy(('roles/none', [], 'true')))
admin('A3 bindings', policy((VIEWER, [], '1 +'), ('roles/', [], 'true')))
admin('A3 bindings', policy((VIEWER, [], '1 +'), (VIEWER, ['allUsers'], 'true')))
admin('A3 resource', policy((VIEWER, [], '1 +'), at='//a/'))
check('allowed', T0)

# What conditions see: the resource that is asked for and the moment. One with an error doesn't hold.
for want, text in [
    ('allowed', 'resource.service == "storage.googleapis.com"'), ('G9', 'resource.service == "//storage.googleapis.com"'),
    ('allowed', 'resource.name == "projects/_/buckets/a"'), ('G9', 'resource.name == "/projects/_/buckets/a"'),
    ('allowed', 'resource["name"].endsWith("/a")'), ('allowed', 'size(resource) == 2 && "name" in resource'), ('G9', '"type" in resource'),
    ('allowed', 'has(resource.name)'), ('G9', 'has(resource.type)'), ('G9', 'resource.type == "a"'), ('G9', 'resource.type != "a"'),
    ('G9', '!(resource.type == "a")'),
    ('allowed', 'resource.name.extract("buckets/{b}") == "a"'), ('G9', 'resource.name.extract("buckets") == "a"'),
    ('allowed', 'resource.name.split("/")[3] == "a"'), ('G9', 'resource.name.split("/")[4] == "a"'), ('G9', 'resource.name.split("") == []'),
    ('G9', '1 / 0 == 1'), ('G9', '9223372036854775807 + 1 > 0'), ('G9', 'int(resource.name) == 1'),
    ('G9', 'timestamp(resource.name) == request.time'),
    ('allowed', 'true || 1 / 0 == 1'), ('allowed', '1 / 0 == 1 || true'), ('G9', '1 / 0 == 1 || false'), ('G9', '1 / 0 == 1 && true'),
    ('G9', '!(1 / 0 == 1)'),
    ('allowed', 'request.time == timestamp("2023-11-14T22:15:00Z")'), ('allowed', 'size(request) == 1'), ('G9', 'request.date == request.time'),
    ('allowed', 'int(request.time) == 1700000100'), ('allowed', 'string(request.time) == "2023-11-14T22:15:00Z"'),
    ('allowed', 'request.time.getHours() == 22 && request.time.getMinutes() == 15'), ('allowed', 'request.time.getDayOfWeek() == 2'),
    ('allowed', 'request.time - timestamp("2023-11-14T22:13:20Z") == duration("1m40s")'),
    ('G9', 'request.time + duration("87600000h") > request.time'),
]:
    conditional(text)
    check(want, T0)
conditional('request.time < timestamp("2023-11-14T22:15:00Z")')
check('allowed', T0, AT + 99)
check('G9', T0, AT + 100)
check('allowed', T0, 0)
conditional('request.time <= timestamp("2023-11-14T22:15:00Z")')
check('allowed', T0, AT + 100)
check('G9', T0, AT + 101)
conditional('request.time >= timestamp("2023-11-14T22:15:00Z")')
check('G9', T0, AT + 99)
check('allowed', T0, AT + 100)
LONG = access(jti='18', exp=2 ** 53 - 1)
conditional('request.time == timestamp("1970-01-01T00:00:00Z")', members=[f'principalSet://{PATH}/*'])
check('allowed', LONG, 0)
check('G9', LONG, 1)
conditional('request.time.getFullYear() == 8307', members=[f'principalSet://{PATH}/*'])
check('allowed', LONG, 200000000000)
check('G9', LONG)
conditional('resource.name == ""')
check('G9', T0)
puts(policy((VIEWER, [REPOSITORY], 'resource.name == "" && resource.service == "host.example"'), at='//host.example'))
check('allowed', T0, resource='//host.example')
check('G9', T0, resource='//host.example/a')
conditional('resource.name.startsWith("projects/_/buckets/a/objects/logs/")')
check('allowed', T0, resource=BUCKET + '/objects/logs/x')
check('G9', T0, resource=BUCKET + '/objects/x')
check('G9', T0)

# Bindings and policies beside one another: one that holds is enough, whatever the others do.
conditional('1 / 0 == 1', 'false')
check('G9', T0)
conditional('1 / 0 == 1', 'false', 'true')
check('allowed', T0)
conditional('false', None)
check('allowed', T0)
puts(policy((VIEWER, [f'principal://{PATH}/subject/x'], 'true'), (CREATOR, [REPOSITORY], 'true'), (VIEWER, [REPOSITORY], 'false')))
check('G9', T0)
puts(policy((VIEWER, [REPOSITORY], 'resource.name.endsWith("/a/b")'), at='//storage.googleapis.com/projects/_'))
check('G9', T0)
check('allowed', T0, resource=BUCKET + '/b')
puts(policy(at='//storage.googleapis.com/projects/_'))
check('G9', T0, resource=BUCKET + '/b')

# A role that is put again counts where a condition holds, and no more than there.
conditional('resource.name.endsWith("/a")')
for permissions, want in [([], 'G9'), (['a.b.c'], 'G9'), (['a.b.c', GET], 'allowed')]:
    puts({'kind': 'role', 'role': VIEWER, 'permissions': permissions})
    check(want, T0)
    check('G9', T0, resource=BUCKET + '/objects/x')
check('allowed', T0, permission='a.b.c')

# What a mapping gives: a subject, groups and attributes at their edges, and the first of several faults.
SHAPES = {'kind': 'provider', 'project': '1234', 'pool': 'ci-pool', 'provider': 'shapes', 'issuer': 'https://shapes.example',
          'key': encoded(b'Q' * 32),
          'mapping': {'google.subject': 'assertion.sub', 'google.groups': 'assertion.groups', 'attribute.team': 'assertion.team',
                      'attribute.area': 'assertion.area'},
          'condition': 'assertion.sub != "nobody"'}


def shaped(want, left=(), provider=SHAPES, at=AT, **changes):
    """An exchange of a token with a subject, a group and two attributes; `left` are claims that it lacks."""
    told = dict({'iss': provider['issuer'], 'sub': 's', 'aud': provider_name(provider), 'exp': AT + 900, 'groups': ['g'], 'team': 't',
                 'area': 'a'}, **changes)
    token = subject({name: value for name, value in told.items() if name not in left}, key=b'Q' * 32)
    exchange(want, token, at, audience=provider_name(provider))


def shape(groups=('g',), subject='s', **attributes):
    return {'attributes': dict({'area': 'a', 'team': 't'}, **attributes), 'groups': list(groups), 'subject': subject}


shaped('E14')
puts(SHAPES)
shaped('issued')
T1 = latest(shape())
introspect('active', T1)
for text in ('s' * 127, '\u00e9' * 63 + 's', '/', ' ', '\u0000'):
    shaped('issued', sub=text)
    introspect('active', latest(shape(subject=text)))
for text in ('s' * 128, '\u00e9' * 64):
    shaped('E19 TooLong google.subject', sub=text)
for value in ('', 7, None, True, 1.5, ['s'], {}):
    shaped('E19 Subject', sub=value)
shaped('E19 Subject', ['sub'])
for groups in ([], ['g'] * 64, ['g' * 256], ['\u00e9' * 128], ['b', 'a', 'b'], ['/', ' ']):
    shaped('issued', groups=groups)
    introspect('active', latest(shape(groups)))
for groups in (['g'] * 65, ['g' * 257], ['g', '\u00e9' * 128 + 'g'], ['g' * 257] * 65):
    shaped('E19 TooLong google.groups', groups=groups)
for value in ([''], ['g', ''], [7], [None], ['g', ['g']], [1.5], 'g', {'g': 'g'}, None, 7, 1.5, True):
    shaped('E19 Groups', groups=value)
shaped('E19 Groups', ['groups'])
shaped('E25', groups=['g' * 256] * 64)
for text in ('t' * 256, '\u00e9' * 128, '/', 'a/b', ' '):
    shaped('issued', team=text)
    introspect('active', latest(shape(team=text)))
for text in ('t' * 257, '\u00e9' * 128 + 't'):
    shaped('E19 TooLong attribute.team', team=text)
for value in ('', 7, None, True, 1.5, ['t'], {}):
    shaped('E19 Attribute team', team=value)
shaped('E19 Attribute team', ['team'])
for want, left, changes in [
    ('E18 Issuer', ['sub', 'groups'], {'iss': 'x', 'aud': 'x'}), ('E18 Audience', ['sub'], {'aud': 'x', 'exp': AT}),
    ('E18 Expired', ['sub'], {'exp': AT, 'nbf': AT + 1}),
    ('E18 NotYet', ['sub'], {'nbf': AT + 1}), ('E19 Subject', ['sub', 'groups', 'area'], {}),
    ('E19 Groups', ['groups', 'area'], {'sub': 's' * 128}),
    ('E19 Attribute area', ['area', 'team'], {'sub': 's' * 128}),
    ('E19 Attribute team', ['team'], {'sub': 's' * 128, 'groups': ['g'] * 65, 'area': 'a' * 257}),
    ('E19 TooLong google.subject', [], {'sub': 's' * 128, 'groups': ['g'] * 65, 'area': 'a' * 257}),
    ('E19 TooLong google.groups', [], {'groups': ['g'] * 65, 'area': 'a' * 257}),
    ('E19 TooLong attribute.area', [], {'area': 'a' * 257, 'team': 't' * 257}),
    ('E19 TooLong attribute.area', [], {'sub': 'nobody', 'area': 'a' * 257}), ('E19 Attribute area', ['area'], {'sub': 'nobody'}),
    ('E20 ConditionFalse', [], {'sub': 'nobody'}), ('E20 ConditionFalse', [], {'sub': 'nobody', 'groups': ['g' * 256] * 64}),
    ('E17 Iss', ['iss', 'sub'], {}), ('E17 Exp', ['exp'], {'iss': 'x'}), ('E17 Aud', [], {'iss': 'x', 'aud': 7}),
]:
    shaped(want, left, **changes)
exchange('E16 Mac', subject(claims(iss=SHAPES['issuer'])), audience=provider_name(SHAPES))
exchange('E16 Mac', subject(claims(), key=b'Q' * 32))

# Mappings that compute, and that err.
for want, key, text, changes in [
    ('issued', 'attribute.team', 'assertion.team.lowerAscii()', {'team': 'T'}), ('issued', 'attribute.team', 'string(assertion.team)', {'team': 7}),
    ('E19 Attribute team', 'attribute.team', 'string(assertion.team)', {'team': []}),
    ('issued', 'attribute.team', 'assertion.team.a.b[1]', {'team': {'a': {'b': ['x', 't']}}}),
    ('E19 Attribute team', 'attribute.team', 'assertion.team.a.b[2]', {'team': {'a': {'b': ['x', 't']}}}),
    ('issued', 'attribute.team', 'has(assertion.none) ? assertion.none : "t"', {}), ('E19 Attribute team', 'attribute.team', '["t"][1]', {}),
    ('E19 Attribute team', 'attribute.team', 'string(1 / 0)', {}), ('issued', 'attribute.team', 'assertion.sub.extract("{team}:")', {'sub': 't:s'}),
    ('E19 Attribute team', 'attribute.team', 'assertion.sub.extract("{team}:")', {'sub': 's'}),
    ('E19 TooLong attribute.team', 'attribute.team', 'assertion.team + "t"', {'team': 't' * 256}),
    ('E19 Attribute team', 'attribute.team', 'assertion.groups.map(g, g.name).join("")', {}),
    ('issued', 'google.groups', 'assertion.groups.split(",")', {'groups': 'g,h'}),
    ('E19 Groups', 'google.groups', 'assertion.groups.split(",")', {'groups': 'g,'}),
    ('issued', 'google.groups', 'assertion.groups.filter(g, g != "")', {'groups': ['', 'g']}), ('E19 Groups', 'google.groups', '["g", 1]', {}),
    ('issued', 'google.groups', 'assertion.groups.map(g, "x:" + g)', {'groups': ['g', 'h']}),
    ('E19 Groups', 'google.groups', 'assertion.groups.map(g, "x:" + g)', {'groups': ['g', 1]}),
    ('issued', 'google.groups', 'assertion.groups.map(g, g.startsWith("a"), g)', {'groups': ['g'] * 200 + ['a']}),
    ('E19 Groups', 'google.groups', 'assertion.groups.filter(g, g == "a")', {'groups': ['g'] * 257}),
    ('issued', 'google.subject', '"x::" + assertion.sub', {}),
    ('E19 TooLong google.subject', 'google.subject', 'assertion.sub + "::x"', {'sub': 's' * 125}),
    ('E19 Subject', 'google.subject', 'assertion.sub in assertion ? "s" : "t"', {'load': 1.5}),
    ('issued', 'google.subject', 'has(assertion.load) ? "s" : "t"', {'load': 1.5}),
]:
    puts(dict(SHAPES, mapping=dict(SHAPES['mapping'], **{key: text})))
    shaped(want, **changes)
puts(dict(SHAPES, mapping=SUB))
shaped('issued', ['groups', 'team', 'area'])
introspect('active', latest({'attributes': {}, 'subject': 's'}))
puts(dict(SHAPES, mapping=dict(SUB, **{'attribute.b': 'assertion.team', 'attribute.a0': 'assertion.team', 'attribute.a_': 'assertion.team',
                                       'attribute.a': 'assertion.area'})))
shaped('issued')
introspect('active', latest({'attributes': {'a': 'a', 'a0': 't', 'a_': 't', 'b': 't'}, 'subject': 's'}))
shaped('E19 Attribute a0', team='')
puts(SHAPES)

# Audiences that a provider lists stand in place of its name.
LISTED = dict(SHAPES, provider='listed', audiences=['one', 'https://two.example/x', '\u00e9'])
puts(LISTED)
for audience in ('one', 'https://two.example/x', '\u00e9', ['x', 'one'], ['one', provider_name(LISTED)]):
    shaped('issued', provider=LISTED, aud=audience)
for audience in (provider_name(LISTED), 'https:' + provider_name(LISTED), 'two', 'One', 'on', 'https:one', '', [], ['x', provider_name(LISTED)]):
    shaped('E18 Audience', provider=LISTED, aud=audience)
shaped('E18 Audience', ['aud'], LISTED)
puts(dict(LISTED, audiences=['x' * 256] * 10))
shaped('E18 Audience', provider=LISTED, aud='one')
shaped('issued', provider=LISTED, aud='x' * 256)
puts(dict(LISTED, audiences=[]))
shaped('E18 Audience', provider=LISTED, aud='one')
shaped('issued', provider=LISTED)
shaped('issued', provider=LISTED, aud=['x', 'https:' + provider_name(LISTED)])
shaped('E18 Audience', provider=LISTED, aud=provider_name(SHAPES))

# Members that name a group or an attribute.
AREA = f'principalSet://{PATH}/attribute.area/'
shaped('issued', groups=['g', 'a/b', 'G'], area='x/y:z')
T2 = latest(shape(['g', 'a/b', 'G'], area='x/y:z'))
introspect('active', T2)
for want, member in [('allowed', f'principalSet://{PATH}/group/g'), ('allowed', f'principalSet://{PATH}/group/a/b'),
                     ('G9', f'principalSet://{PATH}/group/a'), ('G9', f'principalSet://{PATH}/group/gg'), ('G9', f'principalSet://{PATH}/group/b'),
                     ('allowed', f'principalSet://{PATH}/group/G'),
                     ('G9', f'principalSet://{PATH}/group/t'), ('allowed', AREA + 'x/y:z'), ('G9', AREA + 'x/y'), ('G9', AREA + 'x/y:z/'),
                     ('G9', AREA + 'X/y:z'),
                     ('G9', AREA + 't'), ('allowed', AREA.replace('area', 'team') + 't'), ('G9', AREA.replace('area', 'none') + 't'),
                     ('G9', AREA.replace('area', 'are') + 'x/y:z'), ('allowed', f'principalSet://{PATH}/*'),
                     ('allowed', f'principal://{PATH}/subject/s'),
                     ('G9', f'principal://{PATH}/subject/g'), ('G9', f'principalSet://{PATH}/group/g'.replace('1234', '1235')),
                     ('G9', (AREA + 'x/y:z').replace('1234', '1235')), ('G9', 'serviceAccount:' + BUILDER)]:
    conditional(None, members=[member])
    check(want, T2)
conditional('resource.name != ""', members=[f'principalSet://{PATH}/group/none', AREA + 'x/y:z'])
check('allowed', T2)
check('G9', T1)

# A provider of the same name in a pool of another project, disabled at first: its principals are others.
ELSEWHERE = dict(SHAPES, project='1235')
puts(ELSEWHERE)
shaped('E15', provider=ELSEWHERE)
puts({'kind': 'pool', 'project': '1235', 'pool': 'ci-pool'})
shaped('issued', provider=ELSEWHERE)
shaped('E18 Audience', provider=ELSEWHERE, aud=provider_name(SHAPES))
PATH_ELSEWHERE = PATH.replace('1234', '1235')
T3 = latest(dict(shape(), pool='1235/ci-pool'), PATH_ELSEWHERE)
introspect('active', T3)
conditional(None, members=[f'principalSet://{PATH}/group/g', f'principalSet://{PATH}/*'])
check('G9', T3)
conditional(None, members=[f'principalSet://{PATH_ELSEWHERE}/group/g'])
check('allowed', T3)
check('G9', T2)

# A provider that is put otherwise changes no token that stands, and each later exchange.
conditional(None, members=[f'principalSet://{PATH}/group/g'])
check('allowed', T1)
for want, change in [('E16 Mac', {'key': KEY}), ('E18 Issuer', {'issuer': 'https://x.example'}), ('E18 Audience', {'audiences': ['x']}),
                     ('E20 ConditionFalse', {'condition': 'false'}), ('E15', {'disabled': True}), ('issued', {'mapping': SUB})]:
    puts(dict(SHAPES, **change))
    check('allowed', T1)
    introspect('active', T1)
    shaped(want)
check('G9', latest({'attributes': {}, 'subject': 's'}))
puts(SHAPES)
shaped('issued')
check('allowed', latest(shape()))

# A token of 8,192 bytes, whose payload has 6,083, is the longest that is issued.
exchange('issued', subject(dict(FULL, may_act=actors(6, 'a' * 1024, 'a' * 318))))
introspect('active', latest(may_act=actors(6, 'a' * 1024, 'a' * 318)))
exchange('E25', subject(dict(FULL, may_act=actors(6, 'a' * 1024, 'a' * 319))))
