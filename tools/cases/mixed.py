"""Chains in which the four kinds of link stand beside one another, to their greatest depth, and what ends and narrows them."""
from signing import AT

from .requests import (ANY, BUILDER, CREATOR, DEPLOY, GET, VIEWER, acts, bounds, check, delegate, generates, impersonate, introspect, narrow,
                       narrows, policy, puts, reach, rule, told)
from .exchanges import EVERYBODY, SIBLING
from .impersonation import IAM, WIDE, account, member
from .delegation import AGENT_1, AGENT_2, AGENT_X, AGENTS_PATH, NAME_1, NAME_2, NAME_X, agent, inside, pool

AGENTS = f'principalSet://{AGENTS_PATH}/*'
ACTORS = {NAME_1: AGENT_1, NAME_2: AGENT_2, NAME_X: AGENT_X}
WITHIN = [rule(), rule(CREATOR, at=IAM)]
puts(policy((VIEWER, [EVERYBODY, AGENTS, member(BUILDER), member(DEPLOY)], None)))
for email in (BUILDER, DEPLOY):
    reach(email, EVERYBODY, AGENTS, member(BUILDER), member(DEPLOY))


def may_act(token):
    """The first who may act, or none."""
    return told(token).get('may_act', {}).get('sub')


def grown(kind, token, count):
    """The token made of another: a narrower one (N), an account's (I), or one of two, for which it is the subject's (S) or the actor's (A)."""
    if kind == 'N':
        return narrow(token, *WITHIN[:2 * (count % 2)], at=AT + 100)
    if kind == 'I':
        return impersonate(token, (BUILDER, DEPLOY)[count % 2])
    if kind == 'S':
        return delegate(token, ACTORS[may_act(token)])
    return delegate((inside, agent)[count % 2](told(token)['sub'], NAME_X, NAME_1), token)


CHAINS = []
for kinds in ('SNSNINI', 'NIASNSI', 'INIAASN', 'ASASASN'):
    token = inside(NAME_1, NAME_X, NAME_2)
    for count, kind in enumerate(kinds):
        token = grown(kind, token, count)
        introspect('active', token, AT + 100)
        check('allowed', token)
        check('G8 0' if told(token)['wif']['bounds'] else 'G9', token, resource=SIBLING)
    CHAINS.append(token)

# The ninth link of each kind.
for token in CHAINS:
    narrows('E24', None, token, AT + 100)
    bounds('E24', *WITHIN, token=token, at=AT + 100)
    generates('I10', token)
    generates('I10', token, DEPLOY, scope=WIDE)
    acts('E24' if may_act(token) else 'E23', token, ACTORS.get(may_act(token), AGENT_1))
    acts('E24', inside(told(token)['sub']), token)

# The first of the pools and accounts that isn't enabled ends each of them.
for name in ('1234/ci-pool', '5678/agents'):
    pool(name, disabled=True)
    for token in CHAINS:
        pools = told(token)['wif']['pools']
        check(f'G5 {pools.index(name)}' if name in pools else 'allowed', token)
        introspect('inactive' if name in pools else 'active', token, AT + 100)
    pool(name)
for email in (BUILDER, DEPLOY):
    account(email, disabled=True)
    for token in CHAINS:
        accounts = told(token)['wif']['accounts']
        check(f'G6 {accounts.index(email)}' if email in accounts else 'allowed', token)
        introspect('inactive' if email in accounts else 'active', token, AT + 100)
    account(email)

# Words, boundaries and grants count as they are put last.
for command, back, reason in [
    ({'kind': 'scope', 'scope': ANY, 'permissions': []}, {'kind': 'scope', 'scope': ANY, 'permissions': '*'}, 'G7'),
    ({'kind': 'role', 'role': VIEWER, 'permissions': []}, {'kind': 'role', 'role': VIEWER, 'permissions': [GET]}, 'G8'),
]:
    puts(command)
    for token in CHAINS:
        lists = told(token)['wif'][{'G7': 'scopes', 'G8': 'bounds'}[reason]]
        check(f'{reason} 0' if lists else 'G9', token)
        introspect('active', token, AT + 100)
    puts(back)
for token in CHAINS:
    check('allowed', token, AT + 899)
    check('G4', token, AT + 900)
