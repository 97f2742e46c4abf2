"""Access tokens exchanged by an actor: who may act for whom, and what the token carries of both."""
from model import ACCESS, EVERY, OAUTH, nested
from signing import AT, compact, decoded, encoded, provider_name, signed

from .requests import (ANY, BUILDER, DEPLOY, FULL, GATE, GET, HELPER, NAME, OUTSIDE, OWN, PATH, REPOSITORY, SUBJECT, VIEWER, access,
                       acts, altered, bounds, check, delegate, delegated, exchange, generates, impersonate, introspect, latest, narrow, narrower,
                       narrows, policy, puts, reach, rule, subject, told)
from .first import SORTED
from .providers import shape, shaped
from .exchanges import AT_B, CREATE, EDITOR, ONE, SIBLING, UNKNOWN_ROLE
from .impersonation import CHAIN, DEPLOYED, FIVE, NONE, STEPS, WIDE, account, member

AGENTS = {'kind': 'provider', 'project': '5678', 'pool': 'agents', 'provider': 'agents', 'issuer': 'https://agents.example', 'key': encoded(b'A' * 32),
          'mapping': {'google.subject': 'assertion.sub'}}
AGENTS_PATH = 'iam.googleapis.com/projects/5678/locations/global/workloadIdentityPools/agents'
ME, NAME_1, NAME_2 = (f'principal://{PATH}/subject/{sub}' for sub in ('s', 'agent-1', 'agent-2'))
NAME_X = f'principal://{AGENTS_PATH}/subject/x'


def pool(name, disabled=False):
    project, _, name = name.partition('/')
    puts({'kind': 'pool', 'project': project, 'pool': name, 'disabled': disabled})


def inside(*may_act, sub='s', exp=AT + 900, at=AT):
    """The token of an exchange in the first pool, for somebody for whom these may act, one after the other."""
    given = {'may_act': nested('may_act', list(may_act))} if may_act else {}
    exchange('issued', subject(dict(FULL, sub=sub, exp=exp, **given)), at, scope=ANY)
    return latest({'subject': sub}, at=at, scope=ANY, exp=min(exp, at + 3600), **given)


def agent(*may_act, sub='x', exp=AT + 900, at=AT):
    """The same in the agents' pool."""
    given = {'may_act': nested('may_act', list(may_act))} if may_act else {}
    token = subject(dict({'iss': AGENTS['issuer'], 'sub': sub, 'aud': provider_name(AGENTS), 'exp': exp}, **given), key=decoded(AGENTS['key']))
    exchange('issued', token, at, audience=provider_name(AGENTS), scope=ANY)
    return latest({'attributes': {}, 'pool': '5678/agents', 'subject': sub}, AGENTS_PATH, at=at, scope=ANY, exp=min(exp, at + 3600), **given)


# Two actors, one after the other, each in their turn: the act of the last one holds that of the first.
puts(policy((VIEWER, [REPOSITORY, *map(member, [BUILDER, DEPLOY, *STEPS])], None)))
reach(BUILDER, REPOSITORY)
FOR_TWO, AGENT_1, AGENT_2 = inside(NAME_1, NAME_2), inside(sub='agent-1'), inside(sub='agent-2')
ACTED = delegate(FOR_TWO, AGENT_1, at=AT)
introspect('active', ACTED, AT + 100)
TWICE = delegate(ACTED, AGENT_2, at=AT)
introspect('active', TWICE, AT + 100)
acts('E23', TWICE, AGENT_1, AT)
acts('E23', FOR_TWO, AGENT_2, AT)
for token in (ACTED, TWICE):
    check('allowed', token)
    check('G9', token, resource=SIBLING)
    check('G4', token, AT + 900)
    introspect('active', token, AT + 899)
    introspect('inactive', token, AT + 900)
acts('issued', FOR_TWO, AGENT_1)
acts('issued', FOR_TWO, AGENT_1, options='{}', requested_token_type=ACCESS, tail='&scope=&audience')
introspect('active', delegated(FOR_TWO, AGENT_1))
for changes in ({'options': '{}'}, {'scope': 'read'}, {'options': ' {"a":1} '}):
    acts('E23', FOR_TWO, AGENT_2, **changes)

# Who may act: the first name in the subject token's `may_act` is the actor's, in each byte.
for first in (NAME_1[:-1], NAME_1 + '1', 'agent-1', NAME_1.replace('1234', '1235'), NAME_1.replace('agent', 'Agent'), f'principal://{PATH}/subject/*',
              f'principalSet://{PATH}/*'):
    token = inside(first, NAME_1)
    acts('E23', token, AGENT_1)
acts('E23', inside(member(NONE), member(BUILDER)), AGENT_1)
for token, actor in ((AGENT_1, AGENT_1), (AGENT_1, AGENT_2), (CHAIN[0], AGENT_1), (CHAIN[1], AGENT_1), (AGENT_1, FOR_TWO)):
    acts('E23', token, actor)
MINE = inside(ME)
for actor, want in ((MINE, 'issued'), (FOR_TWO, 'issued'), (ACTED, 'issued'), (CHAIN[0], 'E23'), (CHAIN[1], 'E23'), (AGENT_1, 'E23')):
    acts(want, MINE, actor)
shaped('issued', sub='agent-1')
OF_SHAPE = latest(shape(subject='agent-1'))
introspect('active', delegate(FOR_TWO, OF_SHAPE))
pool('5678/agents')
puts(AGENTS)
AGENT_X = agent()
for token, actor, want in ((inside(NAME_X), AGENT_X, 'issued'), (FOR_TWO, AGENT_X, 'E23'), (agent(NAME_1), AGENT_1, 'issued'),
                           (inside(NAME_1.replace(PATH, AGENTS_PATH)), AGENT_1, 'E23')):
    acts(want, token, actor)

# A service account as the actor, and those who reached it, who have other names.
FOR_BUILDER = inside(member(BUILDER))
BUILDS = impersonate(CHAIN[0], BUILDER)
for actor, want in ((BUILDS, 'issued'), (CHAIN[0], 'E23'), (DEPLOYED, 'E23'), (FIVE, 'E23'), (narrow(BUILDS, *AT_B, at=AT + 100, scope='a'), 'issued')):
    acts(want, FOR_BUILDER, actor)
for name in (BUILDER, member(BUILDER)[:-1]):
    acts('E23', inside(name), BUILDS)
BY_BUILDER = delegate(FOR_BUILDER, BUILDS)
introspect('active', BY_BUILDER)
check('allowed', BY_BUILDER)

# Each token is the very text that was issued, and is live: the subject token, and then the actor's.
for token in ('x', 'a.b.c', SORTED, AGENT_1[:-1], AGENT_1 + '.', ' ' + AGENT_1, altered(AGENT_1), 'Bearer ' + AGENT_1,
              signed(OWN, told(AGENT_1), '{"typ":"JWT","alg":"HS256"}'), signed(OUTSIDE, told(AGENT_1)), signed(OWN, dict(told(AGENT_1), jti='4294967295')),
              signed(OWN, dict(told(AGENT_1), iat=AT + 1)), narrower(AGENT_1, number=0), GATE, NAME_1):
    acts('E22', FOR_TWO, token)
    acts('E21', token, AGENT_1)
    acts('E21', token, token)
acts('E22', FOR_TWO, delegated(FOR_TWO, AGENT_1, number=0))
acts('E21', delegated(FOR_TWO, AGENT_1, number=0), AGENT_1)
SHORT, LONG = inside(sub='agent-1', exp=AT + 300), inside(NAME_1, exp=AT + 7200)
acts('issued', FOR_TWO, SHORT, AT + 299)
acts('E22', FOR_TWO, SHORT, AT + 300)
acts('E21', FOR_TWO, AGENT_1, AT + 900)
acts('E21', FOR_TWO, SHORT, AT + 900)
acts('E22', LONG, AGENT_1, AT + 900)
acts('E22', LONG, AGENT_2, AT + 900)
acts('E21', LONG, AGENT_1, AT + 3600)
acts('E21', SHORT, 'x', AT + 300)

# Two at fault: the first in the order of the rules counts.
JWT = OAUTH + 'token-type:jwt'
FAULTS = [
    ('E1', {'colour': '\ufffd'}), ('E2', {'actor_token': [AGENT_1, AGENT_1]}), ('E6', {'subject_token_type': 'x'}), ('E7', {'requested_token_type': JWT}),
    ('E8', {'actor_token': None}), ('E8', {'actor_token_type': ''}), ('E9', {'actor_token_type': JWT}), ('E10', {'resource': 'x'}),
    ('E11', {'scope': 'none'}), ('E12 Json', {'options': '{'}), ('E12 Shape 0', {'options': '{"accessBoundary":null}'}),
    ('E12 Role 0', {'options': UNKNOWN_ROLE}), ('E13', {'options': ONE}), ('E13', {'subject_token_type': JWT}), ('E14', {'audience': NAME}),
    ('E21', {'subject_token': 'x'}), ('E22', {'actor_token': 'x'}), ('E23', {'actor_token': AGENT_2}), ('E23', {'subject_token': AGENT_1}),
]
for number, (first, one) in enumerate(FAULTS):
    acts(first, FOR_TWO, AGENT_1, **one)
    for second, other in FAULTS[number + 1:]:
        if not one.keys() & other.keys() and (first, second) != ('E8', 'E8'):
            acts('E21' if (first, second) == ('E22', 'E21') else first, FOR_TWO, AGENT_1, **one, **other)

# What the token is for is the subject's: its principal, its words and its boundaries. Those of the actor don't count.
ON_B = narrow(AGENT_1, *AT_B, at=AT + 100, scope='a')
check('G7 1', ON_B)
token = delegate(FOR_TWO, ON_B)
introspect('active', token)
check('allowed', token)
check('G8 0', delegate(narrow(FOR_TWO, *AT_B), AGENT_1))
check('G7 1', delegate(narrow(FOR_TWO, scope='write'), AGENT_1))
for scope, want in (('read', 'allowed'), ('write', 'G7 1'), ('a', 'G7 1'), ('a read', 'allowed'), (EVERY, 'allowed')):
    token = delegate(FOR_TWO, AGENT_1, scope=scope)
    introspect('active', token)
    check(want, token)
READS = narrow(FOR_TWO, scope='read')
introspect('active', delegate(READS, ON_B))
check('G7 2', delegate(READS, AGENT_1, scope='write'))
acts('E11', FOR_TWO, AGENT_1, scope='none')
check('G8 0', narrow(ACTED, *AT_B))
for members, of_acted, of_actor in (([ME], 'allowed', 'G9'), ([NAME_1], 'G9', 'allowed'), ([NAME_1, ME], 'allowed', 'allowed'), ([NAME_2], 'G9', 'G9')):
    puts(policy((VIEWER, members, None)))
    check(of_acted, ACTED)
    check(of_actor, AGENT_1)
puts(policy((VIEWER, [REPOSITORY, *map(member, [BUILDER, DEPLOY, *STEPS])], None)))
BOUND = delegate(narrow(LONG, rule(EDITOR)), AGENT_1)
for permissions, of_get, of_create in (([], 'G8 0', 'G8 0'), ([CREATE], 'G8 0', 'G9'), ([GET, CREATE], 'allowed', 'G9')):
    puts({'kind': 'role', 'role': EDITOR, 'permissions': permissions})
    check(of_get, BOUND)
    check(of_create, BOUND, permission=CREATE)

# The life of the token: to the end of the first of both that ends, and an hour at most.
for token, actor, at, end in ((LONG, SHORT, AT + 100, AT + 300), (LONG, AGENT_1, AT + 100, AT + 900), (FOR_TWO, SHORT, AT + 100, AT + 300),
                              (FOR_TWO, inside(sub='agent-1', exp=AT + 7200), AT + 100, AT + 900),
                              (LONG, inside(sub='agent-1', exp=AT + 7200), AT - 600, AT + 3000), (LONG, SHORT, 0, 3600)):
    made = delegate(token, actor, at)
    introspect('active', made, end - 1)
    introspect('inactive', made, end)
    check('G4', made, end)
    narrows('E21', None, made, end)
made = delegate(LONG, inside(sub='agent-1', exp=AT + 3600), AT + 3599)
introspect('active', made, AT + 3599)
introspect('inactive', made, AT + 3600)
made = narrow(delegate(LONG, SHORT), at=AT + 200)
check('allowed', made, AT + 299)
check('G4', made, AT + 300)

# A pool that is disabled later ends the token, be it the subject's or an actor's: the subject's pools come first.
BY_X = delegate(inside(NAME_X, NAME_1), AGENT_X)
X_THEN_1 = delegate(BY_X, AGENT_1)
ONE_THEN_X = delegate(delegate(inside(NAME_1, NAME_X), AGENT_1), AGENT_X)
OF_X = delegate(agent(NAME_1), AGENT_1)
for name, places in (('5678/agents', (1, 1, 2, 0)), ('1234/ci-pool', (0, 0, 0, 1))):
    pool(name, disabled=True)
    for token, place in zip((BY_X, X_THEN_1, ONE_THEN_X, OF_X), places):
        check(f'G5 {place}', token)
        check('G4', token, AT + 900)
        introspect('inactive', token, AT + 100)
        narrows('E21', None, token, AT + 100)
    generates('I7', BY_X)
    acts('E21', BY_X, AGENT_1)
    pool(name)
pool('5678/agents', disabled=True)
acts('E22', inside(NAME_X), AGENT_X)
check('allowed', ACTED)
pool('1234/ci-pool', disabled=True)
check('G5 0', BY_X)
check('G5 0', OF_X)
pool('1234/ci-pool')
check('G5 1', BY_X)
check('G5 0', OF_X)
pool('5678/agents')
for token, want in ((BY_X, 'allowed'), (X_THEN_1, 'allowed'), (ONE_THEN_X, 'allowed'), (OF_X, 'G9')):
    check(want, token)
    introspect('active', token, AT + 100)
puts(dict(AGENTS, disabled=True))
check('allowed', BY_X)
acts('issued', inside(NAME_X), AGENT_X)
puts(AGENTS)

# So does an account that an actor reached: those of the subject token's actors come before those of its own.
BY_FIVE = delegate(inside(member(STEPS[4]), member(DEPLOY)), FIVE)
BY_BOTH = delegate(BY_FIVE, DEPLOYED)
AS_BUILDER = impersonate(BY_BOTH, BUILDER)
for place, email in enumerate([*STEPS, BUILDER, DEPLOY]):
    account(email, disabled=True)
    for token in (BY_BOTH, AS_BUILDER):
        check(f'G6 {place}', token)
        introspect('inactive', token, AT + 100)
    check(f'G6 {place}' if place < 5 else 'allowed', BY_FIVE)
    acts('E22' if place > 4 else 'E21', BY_FIVE, DEPLOYED)
    check('allowed', ACTED)
    account(email)
account(DEPLOY, disabled=True)
account(STEPS[2], disabled=True)
check('G6 2', BY_BOTH)
account(STEPS[2])
check('G6 6', BY_BOTH)
pool('1234/ci-pool', disabled=True)
check('G5 0', BY_BOTH)
pool('1234/ci-pool')
account(DEPLOY)
check('allowed', BY_BOTH)
introspect('active', AS_BUILDER, AT + 100)
check('allowed', AS_BUILDER)

# What is made of the token goes on as with any other: narrower ones keep who acted and who may act, a service account's who acted.
token = narrow(ACTED, at=AT + 100)
introspect('active', token)
introspect('active', delegate(token, AGENT_2))
BUILT = impersonate(ACTED, BUILDER)
introspect('active', BUILT)
acts('E23', BUILT, AGENT_2)
introspect('active', narrow(BUILT, at=AT + 100))
introspect('active', delegate(inside(member(BUILDER), NAME_2), BUILT))
generates('I9 0', ACTED, HELPER)
reach(BUILDER, NAME_1)
generates('I9 0', ACTED)
reach(BUILDER, ME)
generates('issued', ACTED)
generates('I9 0', delegate(narrow(FOR_TWO, *AT_B), AGENT_1))
generates('issued', delegate(FOR_TWO, ON_B))
reach(BUILDER, REPOSITORY)

# The actor's own actors are left out: an actor who is acted for has their own name alone.
ACTS_FOR_1 = delegate(inside(NAME_2, sub='agent-1'), AGENT_2)
introspect('active', ACTS_FOR_1)
introspect('active', delegate(FOR_TWO, ACTS_FOR_1))

# A chain has eight tokens at most, by way of the subject or of the actor; who may act is told before that.
DEEP = [inside(*[NAME_1, NAME_2] * 4)]
for number in range(7):
    DEEP.append(delegate(DEEP[-1], (AGENT_1, AGENT_2)[number % 2]))
    introspect('active', DEEP[-1], AT + 100)
check('allowed', DEEP[-1])
acts('E24', DEEP[-1], AGENT_2)
acts('E24', DEEP[-1], AGENT_2, scope='read')
acts('E23', DEEP[-1], AGENT_1)
acts('E22', DEEP[-1], 'x')
acts('E21', DEEP[-1], AGENT_2, AT + 900)
narrows('E24', None, DEEP[-1], AT + 100)
bounds('E24', *AT_B, token=DEEP[-1], at=AT + 100)
generates('I10', DEEP[-1])
acts('E24', FOR_BUILDER, CHAIN[-1])
acts('E23', FOR_TWO, CHAIN[-1])
token = delegate(FOR_BUILDER, CHAIN[-2])
introspect('active', token)
narrows('E24', None, token, AT + 100)
generates('I10', token)
acts('E24', MINE, token)
acts('E24', MINE, DEEP[-1])
acts('issued', MINE, DEEP[1])

# The deeper one of both counts: a fourth and a fifth token make a sixth.
actor = AGENT_2
for _ in range(4):
    actor = narrow(actor, at=AT + 100)
token = delegate(DEEP[3], actor)
for _ in range(2):
    token = narrow(token, at=AT + 100)
    introspect('active', token, AT + 100)
narrows('E24', None, token, AT + 100)

# The longest token: 8,192 bytes. Too many links are told before too many bytes.
ROOM = 6083 - len(compact(told(delegated(narrower(FOR_TWO, rule(text='true')), AGENT_1, scope=' '.join(WIDE)))))
for want, more in (('issued', 0), ('E25', 1)):
    token = narrow(FOR_TWO, rule(text='true' + ' ' * (ROOM + more)))
    acts(want, token, AGENT_1, scope=' '.join(WIDE))
    if want == 'issued':
        introspect('active', delegated(token, AGENT_1, scope=' '.join(WIDE)))
    acts('E23', token, AGENT_2, scope=' '.join(WIDE))
acts('E24', DEEP[-1], AGENT_2, scope=' '.join(WIDE))

# Payloads under the service's key that it didn't write are no tokens of actors, and a check decides them by what they carry.
FORGED = access(act={'sub': NAME_1}, may_act={'sub': NAME_2}, wif={'pools': ['1234/ci-pool', '5678/agents'], 'accounts': [DEPLOY]})
for token, actor, want in ((FORGED, AGENT_1, 'E21'), (FOR_TWO, FORGED, 'E22')):
    acts(want, token, actor)
introspect('inactive', FORGED)
check('G9', FORGED)
puts(policy((VIEWER, [f'principal://{PATH}/subject/{SUBJECT}'], None)))
check('allowed', FORGED)
pool('5678/agents', disabled=True)
check('G5 1', FORGED)
pool('5678/agents')
account(DEPLOY, disabled=True)
check('G6 0', FORGED)
account(DEPLOY)
check('allowed', access(act=nested('act', [NAME_1, member(NONE), NAME_X]), may_act=nested('may_act', ['x'] * 8)))
check('G5 1', access(act={'sub': NAME_X}, wif={'pools': ['1234/ci-pool', '5678/none']}))
check('G6 1', access(act={'sub': member(NONE)}, wif={'accounts': [DEPLOY, NONE]}))
for text in ('principal://x', NAME_1[:-8], 'principal:' + NAME_1, f'principalSet://{PATH}/*', BUILDER, member('x'), '',
             f'principal://{PATH}/subject/' + 's' * 128):
    check('G3', access(act={'sub': text}))
