"""What the cases are made with: the names that they use, what a provider and the service sign, and the requests.

`subject(claims)` signs as the provider does, `access(facts)` as the service does. A call of a request adds a case to `CASES`.
"""
import json

from model import ACCESS, EVERY, GENERATE, OAUTH, nested
from signing import AT, HEADER, compact, decoded, encoded, exchange_pairs, form, provider_name, signed

ISSUER, ADMIN, GATE = 'https://sts.example', 'admin-secret-000001', 'gate-secret-0000001'
OWN, OUTSIDE = b'S' * 32, b'P' * 32
START = {'project': '1234', 'pool': 'ci-pool', 'provider': 'github', 'issuer': 'https://token.actions.githubusercontent.com'}
PATH = 'iam.googleapis.com/projects/1234/locations/global/workloadIdentityPools/ci-pool'
NAME = provider_name(START)
SUBJECT = 'repo:octo/app:ref:refs/heads/main'
BUCKET = '//storage.googleapis.com/projects/_/buckets/a'
GET, VIEWER = 'storage.objects.get', 'roles/storage.objectViewer'
BUILDER, OTHER = 'builder@octo.iam.gserviceaccount.com', 'a@b.iam.gserviceaccount.com'
ID_TOKEN = OAUTH + 'token-type:id_token'
ANY = 'q'
CASES = []


def add(want, path, bearer, at, body):
    CASES.append((want, path, bearer, at, body))


# What a provider and the service sign.

def claims(**changes):
    """The claims of a subject token; one that is None is left out."""
    made = dict({'iss': START['issuer'], 'sub': SUBJECT, 'aud': NAME, 'exp': AT + 900, 'iat': AT}, **changes)
    return {name: value for name, value in made.items() if value is not None}


def subject(payload=None, header=HEADER, key=OUTSIDE):
    return signed(key, claims() if payload is None else payload, header)


def facts(wif=(), **changes):
    """The facts of link 17's token; one that is None is left out, and `wif` changes what stands in its member."""
    who = {'attributes': {}, 'groups': [], 'pool': '1234/ci-pool', 'subject': SUBJECT}
    inner = dict({'accounts': [], 'bounds': [], 'pools': ['1234/ci-pool'], 'scopes': [EVERY], 'who': who}, **dict(wif))
    made = dict({'exp': AT + 900, 'iat': AT, 'iss': ISSUER, 'jti': '17', 'scope': EVERY, 'sub': f'principal://{PATH}/subject/{SUBJECT}',
                 'wif': inner}, **changes)
    return {name: made[name] for name in sorted(made) if made[name] is not None}


def access(payload=None, header=HEADER, key=OWN, **changes):
    return signed(key, facts(**changes) if payload is None else payload, header)


def actors(count, text, innermost=None):
    return nested('may_act', [text] * (count - 1) + [innermost or text])


# The requests.

def exchange(want, token=None, at=AT, tail='', **changes):
    """An exchange of a token; `changes` puts other values and parameters, where None leaves one out and a list puts it more than once,
    and `tail` is more of the form's text."""
    pairs = dict(exchange_pairs(START, subject() if token is None else token), **changes)
    listed = [(name, one) for name, value in pairs.items() for one in (value if isinstance(value, list) else [value]) if one is not None]
    add(want, '/v1/token', '-', at, form(listed) + tail)


def introspect(want, token, at=AT, tail=''):
    add(want, '/v1/introspect', GATE, at, 'token=' + token + tail)


def asks(want, body, bearer=GATE, at=7, path='/v1/introspect'):
    add(want, path, bearer, at, body)


def admin(want, command, bearer=ADMIN, at=AT):
    add(want, '/v1/admin', bearer, at, command if isinstance(command, (str, bytes)) else compact(command))


def check(want, token=None, at=AT + 100, permission=GET, resource=BUCKET, bearer=GATE):
    asked = {'token': access() if token is None else token, 'permission': permission, 'resource': resource}
    checks(want, compact(asked), bearer, at)


def checks(want, body, bearer=GATE, at=AT + 100):
    add(want, '/v1/check', bearer, at, body)


def grant(want, *members):
    admin(want, {'kind': 'policy', 'resource': BUCKET, 'bindings': [{'role': VIEWER, 'members': list(members)}]})


FULL = claims(aud='https:' + NAME, repository='octo/app', repository_owner='octo')
FIRST = access(jti='0')

# A build system's world: a provider with a mapping and a condition, roles, accounts, policies.
KEY = encoded(OUTSIDE)
CREATOR = 'roles/iam.serviceAccountTokenCreator'
REPOSITORY = f'principalSet://{PATH}/attribute.repository/octo/app'
GITHUB = {'kind': 'provider', 'project': '1234', 'pool': 'ci-pool', 'provider': 'github', 'issuer': START['issuer'], 'key': KEY,
          'mapping': {'google.subject': 'assertion.sub', 'attribute.repository': 'assertion.repository'},
          'condition': 'assertion.repository_owner == "octo"'}
DEPLOY, HELPER = (name + '@octo.iam.gserviceaccount.com' for name in ('deploy', 'helper'))


# Commands that are taken, and the tokens of the replies that stand above.

def recorded():
    return sum(want == 'issued' or want.startswith('entry ') for want, *_ in CASES)


def puts(command, at=AT):
    """A command that is taken."""
    admin(f'entry {recorded()}', command, at=at)


def latest(who=(), path=PATH, at=AT, scope=EVERY, **changes):
    """The token that the last exchange issued, where `who` tells of its identity what isn't that of FULL under the first world."""
    links = sum(want == 'issued' for want, *_ in CASES)
    who = dict({'attributes': {'repository': 'octo/app'}, 'groups': [], 'pool': '1234/ci-pool', 'subject': SUBJECT}, **dict(who))
    wif = {'who': who, 'pools': [who['pool']], 'scopes': [scope]}
    return access(jti=str(links - 1), iat=at, scope=scope, sub=f"principal://{path}/subject/{who['subject']}", wif=wif, **changes)


def policy(*bindings, at=BUCKET):
    """A policy of bindings, each a role, members and an expression or none."""
    made = [dict({'role': role, 'members': members}, **({} if text is None else {'condition': {'expression': text}}))
            for role, members, text in bindings]
    return {'kind': 'policy', 'resource': at, 'bindings': made}


def conditional(*texts, members=(REPOSITORY,)):
    """The bucket's policy, a binding for each expression."""
    puts(policy(*[(VIEWER, list(members), text) for text in texts]))


# Access boundaries, and the tokens that they narrow.

def rule(*roles, at=BUCKET, text=None):
    """A rule of an access boundary, its members in byte order."""
    condition = {} if text is None else {'availabilityCondition': {'expression': text}}
    return dict(condition, availablePermissions=['inRole:' + role for role in roles or (VIEWER,)], availableResource=at)


def without(member):
    return {name: value for name, value in rule().items() if name != member}


def offers(names):
    """A rule with these in place of its roles."""
    return dict(rule(), availablePermissions=names)


def where(condition):
    """A rule with this in place of its condition."""
    return dict({'availabilityCondition': condition}, **rule())


def narrows(want, options, token, at=AT, **changes):
    """An exchange of an access token with these options, if any."""
    options = compact(options) if isinstance(options, dict) else options
    exchange(want, token, at, **dict({'subject_token_type': ACCESS, 'audience': None, 'options': options}, **changes))


def bounds(want, *rules, token, **changes):
    """An exchange of an access token with an access boundary of these rules."""
    narrows(want, {'accessBoundary': {'accessBoundaryRules': list(rules)}}, token, **changes)


def told(token):
    """What a token's payload says."""
    return json.loads(decoded(token.split('.')[1]))


def altered(token):
    """The token with one character of its signature changed."""
    return token[:-2] + ('B' if token[-2] == 'A' else 'A') + token[-1]


def later(said, at, scope, number, **changes):
    """The token of the last link, or of one before it, by what the token says that it was made from; a change that is None leaves out."""
    links = sum(want == 'issued' for want, *_ in CASES)
    made = dict(said, iat=at, jti=str(links + number), scope=scope, **changes)
    return access({name: made[name] for name in sorted(made) if made[name] is not None})


def narrower(parent, *rules, at=AT, scope=None, number=-1):
    """The token that narrowed another by these rules, if any, and to these words or its own."""
    said = told(parent)
    scope, wif = scope or said['scope'], said['wif']
    wif = dict(wif, bounds=wif['bounds'] + [list(rules)] * bool(rules), scopes=wif['scopes'] + [scope])
    return later(said, at, scope, number, exp=min(said['exp'], at + 3600), wif=wif)


def narrow(token, *rules, at=AT, scope=None):
    """The token of an exchange for a narrower one."""
    narrows('issued', {'accessBoundary': {'accessBoundaryRules': list(rules)}} if rules else None, token, at, scope=scope)
    return narrower(token, *rules, at=at, scope=scope)


# Tokens of service accounts, and tokens that an actor uses.

def account_at(account):
    return '//iam.googleapis.com/projects/-/serviceAccounts/' + account


def reach(account, *members, text=None):
    """The policy of an account: who may get its token, if an expression holds."""
    puts(policy((CREATOR, list(members), text), at=account_at(account)))


def through(*accounts):
    """Accounts as delegates."""
    return ['projects/-/serviceAccounts/' + account for account in accounts]


def asks_for(want, body, bearer, account=BUILDER, at=AT + 100):
    add(want, GENERATE + account + ':generateAccessToken', bearer, at, body)


def generates(want, token, account=BUILDER, at=AT + 100, **members):
    """A request for an account's token with another token; `members` puts others into its body, where `...` leaves one out."""
    body = {name: value for name, value in dict({'scope': [ANY]}, **members).items() if value is not ...}
    asks_for(want, compact(body), token, account, at)


def impersonated(parent, *accounts, at=AT + 100, scope=ANY, lifetime=3600, number=-1):
    """The token of the last of these accounts, got with another token by way of those before it."""
    said = told(parent)
    wif = dict(said['wif'], accounts=said['wif']['accounts'] + list(accounts), scopes=said['wif']['scopes'] + [scope],
               who={'account': accounts[-1]})
    return later(said, at, scope, number, exp=min(said['exp'], at + lifetime), may_act=None, sub='serviceAccount:' + accounts[-1], wif=wif)


def impersonate(token, *accounts, at=AT + 100, scope=ANY, lifetime=3600):
    """The token of a request for that of the last of these accounts, by way of those before it."""
    generates('issued', token, accounts[-1], at, delegates=through(*accounts[:-1]), scope=scope.split(' '), lifetime=f'{lifetime}s')
    return impersonated(token, *accounts, at=at, scope=scope, lifetime=lifetime)


def acts(want, token, actor, at=AT + 100, **changes):
    """An exchange of an access token by an actor who shows another."""
    exchange(want, token, at, **dict({'subject_token_type': ACCESS, 'audience': None, 'actor_token': actor, 'actor_token_type': ACCESS}, **changes))


def delegated(token, actor, at=AT + 100, scope=None, number=-1):
    """The token for which an actor's token and another were exchanged, for these words or that one's own."""
    said, other = told(token), told(actor)
    scope, wif = scope or said['scope'], said['wif']
    wif = dict(wif, accounts=wif['accounts'] + other['wif']['accounts'], pools=wif['pools'] + other['wif']['pools'], scopes=wif['scopes'] + [scope])
    act = {'act': said['act'], 'sub': other['sub']} if 'act' in said else {'sub': other['sub']}
    return later(said, at, scope, number, act=act, exp=min(said['exp'], other['exp'], at + 3600), may_act=said['may_act'].get('may_act'), wif=wif)


def delegate(token, actor, at=AT + 100, scope=None):
    """The token of an exchange by an actor."""
    acts('issued', token, actor, at, scope=scope)
    return delegated(token, actor, at, scope)
