"""A small model of the service, apart from its code: what it replies to each request, and what it then knows.

It is written from the documents of the formats (docs/FORMATS.md) alone, and makes the expected replies of the stored run.
"""
import re
from urllib.parse import unquote_to_bytes

import journals

from boundaries import SEEN, allows, are_exact, read_boundary, read_rules, sees, written
from chains import DEEPEST, LONGEST_LIFE, Delegate, Federated, Impersonate, Narrow, carries, is_enabled
from expressions import EvalError, checked, holds, meaning, result, text_of, value_of
from forms import Fault, covers, has_form, read_json, read_member, read_object
from signing import ACCESS, OAUTH, compact, decoded, encoded, mac, provider_name, signed

EVERY = 'https://www.googleapis.com/auth/cloud-platform'
EXCHANGE = OAUTH + 'grant-type:token-exchange'
OUTSIDE = (OAUTH + 'token-type:jwt', OAUTH + 'token-type:id_token')
SINGLE = ('grant_type', 'subject_token', 'subject_token_type', 'actor_token', 'actor_token_type', 'requested_token_type', 'scope', 'options')
LATEST = 2 ** 53
GENERATE, DELEGATE, GET_ACCESS_TOKEN = '/v1/projects/-/serviceAccounts/', 'projects/-/serviceAccounts/', 'iam.serviceAccounts.getAccessToken'
SUBJECT_KEY, GROUPS_KEY = 'google.subject', 'google.groups'
CLAIMS = {'assertion': ('map', 'dyn')}
MAPPED = {**CLAIMS, 'google': ('map', 'dyn'), 'attribute': ('map', 'string')}


def strict_base64(text, part):
    if not re.fullmatch(r'[A-Za-z0-9_-]*', text) or len(text) % 4 == 1:
        raise Fault(f'Base64 {part}')
    data = decoded(text)
    if encoded(data) != text:
        raise Fault(f'Base64 {part}')
    return data


def verified(key, text):
    """The payload of a signed text, or the first fault of the signature."""
    parts = text.split('.')
    if len(parts) != 3:
        raise Fault('Parts')
    header, payload, given = (strict_base64(part, number) for number, part in enumerate(parts))
    header = read_object(header, 'Header')
    if header.get('alg') != 'HS256':
        raise Fault('Alg')
    if 'crit' in header:
        raise Fault('Crit')
    if given != mac(key, parts[0] + '.' + parts[1]):
        raise Fault('Mac')
    return payload


def is_count(value, end):
    return type(value) is int and 0 <= value < end


def chain(value, name, limit, is_text):
    """The subjects of actors inside one another, outermost first, or none where it is no such chain."""
    found = []
    while value is not None or not found:
        if not isinstance(value, dict) or not is_text(value.get('sub')) or len(found) == limit:
            return None
        found.append(value['sub'])
        if name in value and value[name] is None:
            return None
        value = value.get(name)
    return found


def is_actor(text):
    return isinstance(text, str) and 1 <= len(text.encode()) <= 1024


def read_claims(payload):
    """The claims as the rules read them, and as they stand."""
    try:
        claims = read_json(payload)
    except (ValueError, RecursionError):
        raise Fault('Json') from None
    if not isinstance(claims, dict):
        raise Fault('NotObject')
    audiences = claims.get('aud', [])
    audiences = [audiences] if isinstance(audiences, str) else audiences
    actors = chain(claims['may_act'], 'may_act', 8, is_actor) if 'may_act' in claims else []
    rules = [('Iss', isinstance(claims.get('iss'), str)),
             ('Aud', isinstance(audiences, list) and all(isinstance(one, str) for one in audiences)),
             ('Exp', is_count(claims.get('exp'), LATEST)),
             ('Nbf', 'nbf' not in claims or is_count(claims['nbf'], LATEST)),
             ('Iat', 'iat' not in claims or is_count(claims['iat'], LATEST)),
             ('MayAct', actors is not None)]
    for fault, holds in rules:
        if not holds:
            raise Fault(fault)
    return dict(claims, aud=audiences, may_act=actors), claims


def nested(name, subjects):
    """Actors inside one another, from their subjects."""
    value = None
    for subject in reversed(subjects):
        value = {'sub': subject} if value is None else {name: value, 'sub': subject}
    return value


def read_form(body):
    """The names and values of a form, and none where one of them isn't UTF-8 or holds U+FFFD."""
    pairs = []
    for piece in body.split(b'&'):
        if piece:
            name, _, value = piece.partition(b'=')
            pairs.append([unquote_to_bytes(part.replace(b'+', b' ')) for part in (name, value)])
    try:
        pairs = [(name.decode(), value.decode()) for name, value in pairs]
    except UnicodeDecodeError:
        return None
    return None if any('\ufffd' in name + value for name, value in pairs) else pairs


def values(pairs, name):
    return [value for found, value in pairs if found == name and value]


class Service:
    """The service's state, and its replies as a status and a JSON value."""

    def __init__(self, config):
        self.config, self.own = config, decoded(config['key'])
        self.pools, self.providers, self.issued = {}, {}, {}
        self.texts, self.size = [], 9
        self.accounts, self.roles, self.policies, self.scopes = {}, {}, {}, {EVERY: '*'}
        if 'start' in config:
            self.pools[pool_of(config['start'])] = True
            self.providers[provider_name(config['start'])] = provider_of(dict(config['start'], mapping={SUBJECT_KEY: 'assertion.sub'}))

    def reply(self, path, bearer, at, body):
        front = path.partition('?')[0]
        generates = re.fullmatch(re.escape(GENERATE) + '(.*):generateAccessToken', front)
        routes = {'/v1/token': self.exchange, '/v1/introspect': self.introspect, '/v1/check': self.check, '/v1/admin': self.admin}
        try:
            if generates:
                return 200, self.generate(generates[1], bearer, at, body)
            if front not in routes:
                raise Fault('H4')
            return 200, routes[front](bearer, at, body)
        except Fault as fault:
            return refusal(str(fault))

    def exchange(self, bearer, at, body):
        asked, boundary, audiences = self.asked(body)
        is_derived = asked['subject_token_type'] == ACCESS
        link = self.derived(asked, boundary, audiences, at) if is_derived else self.federated(asked, audiences, at)
        entry = self.derived_entry(asked, boundary) if is_derived else {
            'kind': 'federated', 'provider': provider_path(audiences[0]), 'token': asked['subject_token']}
        return {'access_token': self.recorded(link, dict(entry, at=at, scope=link.scope), 'E25', 'E26'), 'expires_in': link.exp - at,
                'issued_token_type': ACCESS, 'scope': link.scope, 'token_type': 'Bearer'}

    def derived_entry(self, asked, boundary):
        """What the journal holds of a narrowing or a delegation, but for its moment and its words."""
        if asked['actor_token']:
            return {'kind': 'delegate', 'subject': self.number_of(asked['subject_token']), 'actor': self.number_of(asked['actor_token'])}
        narrowing = {'kind': 'narrow', 'parent': self.number_of(asked['subject_token'])}
        return narrowing if boundary is None else dict(narrowing, boundary=boundary)

    def number_of(self, token):
        """The number of the link whose token it is."""
        return int(self.issued[token][1]['jti'])

    def recorded(self, link, entry, long, full):
        """The token of a link that is recorded, or the rule on its size or on that of the journal that it fails."""
        facts = self.facts(link, len(self.issued))
        token = signed(self.own, facts)
        if len(token) > 8192:
            raise Fault(long)
        self.store(journals.text_of(entry), full)
        self.issued[token] = link, facts
        return token

    def room_for(self, text, full):
        """Refuses an entry whose text is too long, or for which the journal has no room."""
        if len(text) > journals.LONGEST_TEXT or self.size + 5 + len(text) > journals.LONGEST_JOURNAL:
            raise Fault(full)

    def store(self, text, full):
        self.room_for(text, full)
        self.texts.append(text)
        self.size += 5 + len(text)

    def federated(self, asked, audiences, at):
        """The link to a subject token from outside, or the first rule that it fails."""
        if len(audiences) != 1 or audiences[0] not in self.providers:
            raise Fault('E14')
        provider = self.providers[audiences[0]]
        if provider['disabled'] or not self.pools[provider['pool']]:
            raise Fault('E15')
        claims, tree = signed_claims(provider, asked['subject_token'])
        admitted(provider, audiences[0], claims, at)
        who = sorted_members(dict(identity(provider, value_of(tree)), pool=provider['pool']))
        return Federated(at, asked['scope'] or EVERY, claims['exp'], who, claims['may_act'])

    def derived(self, asked, boundary, audiences, at):
        """The link to a link whose token was issued, and to an actor's where there is one, or the first rule that it fails."""
        if audiences:
            raise Fault('E14')
        subject = self.live_link(asked['subject_token'], at, 'E21')
        scope = asked['scope'] or subject.scope
        if not asked['actor_token']:
            return fits(Narrow(at, scope, subject, boundary), 'E24')
        actor = self.live_link(asked['actor_token'], at, 'E22')
        name = name_of(actor.who)
        if subject.may_act[:1] != [name]:
            raise Fault('E23')
        return fits(Delegate(at, scope, subject, actor, name), 'E24')

    def live_link(self, token, at, code):
        """The link whose token was issued, while it is live; else the rule that asks for one."""
        link, facts = self.issued.get(token, (None, None))
        if link is None or not self.is_live(link, facts, at):
            raise Fault(code)
        return link

    def is_live(self, link, facts, at):
        """Whether a link is live, as it is told by the links that it came from, as well as by what its token says."""
        by_text = at < facts['exp'] and all(is_enabled(self.pools, pool) for pool in facts['wif']['pools']) \
            and all(is_enabled(self.accounts, account) for account in facts['wif']['accounts'])
        if link.is_live(self, at) != by_text:
            raise RuntimeError(f'by its text {by_text}, by its links {not by_text}: {facts}')
        return by_text

    def generate(self, account, bearer, at, body):
        if bearer == '-':
            raise Fault('I1')
        if not has_form(account, 'account'):
            raise Fault('I2')
        delegates, scope, lifetime = self.wanted(read_object(body, 'I3'))
        parent, accounts = self.live_link(bearer, at, 'I7'), delegates + [account]
        self.reaches(parent, accounts, at)
        link = fits(Impersonate(at, scope, parent, accounts, lifetime), 'I10')
        entry = {'kind': 'impersonate', 'accounts': accounts, 'at': at, 'lifetime': lifetime, 'parent': self.number_of(bearer), 'scope': scope}
        return {'accessToken': self.recorded(link, entry, 'I11', 'I12'), 'expireTime': text_of(link.exp)}

    def wanted(self, asked):
        """The delegates' accounts, the words and the lifetime of a request for an account's token, or the first fault of its members."""
        delegates, scope, lifetime = (asked.get(name) for name in ('delegates', 'scope', 'lifetime'))
        delegates = [] if delegates is None else delegates
        if not isinstance(delegates, list) or len(delegates) > 4 or not all(map(is_delegate, delegates)):
            raise Fault('I4')
        if not isinstance(scope, list) or not 1 <= len(scope) <= 16 or not all(isinstance(word, str) and word in self.scopes for word in scope):
            raise Fault('I5')
        lifetime = f'{LONGEST_LIFE}s' if lifetime is None else lifetime
        if not isinstance(lifetime, str) or not re.fullmatch('[1-9][0-9]{0,3}s', lifetime) or int(lifetime[:-1]) > LONGEST_LIFE:
            raise Fault('I6')
        return [delegate.removeprefix(DELEGATE) for delegate in delegates], ' '.join(scope), int(lifetime[:-1])

    def reaches(self, parent, accounts, at):
        """Refuses accounts that aren't enabled, and a hop to one of them that isn't allowed."""
        for number, account in enumerate(accounts):
            if not is_enabled(self.accounts, account):
                raise Fault(f'I8 {number}')
        for number, account in enumerate(accounts):
            resource = '//iam.googleapis.com/' + DELEGATE + account
            who = parent.who if number == 0 else {'account': accounts[number - 1]}
            if not self.allows(parent, GET_ACCESS_TOKEN, resource, at) or not self.grants(who, GET_ACCESS_TOKEN, resource, at):
                raise Fault(f'I9 {number}')

    def asked(self, body):
        """The parameters of an exchange that are there once at most, its boundary or none, and its audiences; or the first fault of its form."""
        pairs = read_form(body)
        if pairs is None:
            raise Fault('E1')
        if any(len(values(pairs, name)) > 1 for name in SINGLE):
            raise Fault('E2')
        asked = {name: ''.join(values(pairs, name)) for name in SINGLE}
        outside, is_delegated = asked['subject_token_type'] in OUTSIDE, asked['actor_token'] != ''
        for code, is_fit in [('E3', asked['grant_type']), ('E4', asked['grant_type'] == EXCHANGE), ('E5', asked['subject_token']),
                             ('E6', outside or asked['subject_token_type'] == ACCESS),
                             ('E7', asked['requested_token_type'] in ('', ACCESS)), ('E8', is_delegated == (asked['actor_token_type'] != '')),
                             ('E9', asked['actor_token_type'] in ('', ACCESS)), ('E10', not values(pairs, 'resource')),
                             ('E11', not asked['scope'] or self.are_words(asked['scope']))]:
            if not is_fit:
                raise Fault(code)
        boundary = self.boundary_of(asked['options']) if asked['options'] else None
        if (boundary is not None) + is_delegated + outside > 1:
            raise Fault('E13')
        return asked, boundary, values(pairs, 'audience')

    def are_words(self, scope):
        return has_form(scope, 'scopes') and all(word in self.scopes for word in scope.split(' '))

    def boundary_of(self, options):
        """The rules of the boundary that the options have, or none."""
        options = read_object(options.encode(), 'E12 Json')
        if 'accessBoundary' not in options:
            return None
        try:
            rules = read_boundary(options['accessBoundary'])
        except Fault as fault:
            raise Fault(f'E12 {fault}') from None
        for number, (_, roles, _) in enumerate(rules):
            if not all(role in self.roles for role in roles):
                raise Fault(f'E12 Role {number}')
        return written(options['accessBoundary'])

    def facts(self, link, number):
        """What the token of a link with this number tells."""
        actors = {name: nested(name, subjects) for name, subjects in (('act', link.act), ('may_act', link.may_act)) if subjects}
        return sorted_members(dict(actors, exp=link.exp, iat=link.at, iss=self.config['issuer'], jti=str(number), scope=link.scope,
                                   sub=name_of(link.who), wif=carries(link)))

    def introspect(self, bearer, at, body):
        if bearer != self.config['gate']:
            raise Fault('U1')
        pairs = read_form(body)
        if pairs is None:
            raise Fault('N1')
        tokens = values(pairs, 'token')
        if len(tokens) != 1:
            raise Fault('N2')
        link, facts = self.issued.get(tokens[0], (None, None))
        if link is None or not self.is_live(link, facts, at):
            return {'active': False}
        told_members = {name: facts[name] for name in ('act', 'exp', 'iat', 'iss', 'jti', 'scope', 'sub') if name in facts}
        return sorted_members(dict(told_members, active=True, token_type='Bearer'))

    def check(self, bearer, at, body):
        if bearer != self.config['gate']:
            raise Fault('U1')
        asked = read_object(body, 'C1')
        rules = [('C2', isinstance(asked.get('token'), str)), ('C3', has_form(asked.get('permission'), 'permission')),
                 ('C4', has_form(asked.get('resource'), 'resource'))]
        for code, holds in rules:
            if not holds:
                raise Fault(code)
        denial = self.decision(asked['token'], asked['permission'], asked['resource'], at)
        if denial is None:
            return {'allowed': True}
        reason, _, place = denial.partition(' ')
        return dict({'allowed': False}, **({'place': int(place)} if place else {}), reason=reason)

    def decision(self, text, permission, resource, at):
        """The first rule that denies, with its place, or none. A token that was issued is decided by its link, as well as by its text."""
        try:
            carried = self.carried(text)
            by_text = self.denial(carried['exp'], carried['wif'], permission, resource, at)
        except Fault as fault:
            by_text = str(fault)
        if text in self.issued:
            link, _ = self.issued[text]
            by_link = None if self.admits(link, permission, resource, at) else self.denial(link.exp, carries(link), permission, resource, at)
            if by_link != by_text:
                raise RuntimeError(f'by its link {by_link}, by its text {by_text}: {text}')
        return by_text

    def admits(self, link, permission, resource, at):
        """Whether each link down to the root is live and allows it, and it is granted to whom the link is for."""
        return link.is_live(self, at) and self.allows(link, permission, resource, at) and self.grants(link.who, permission, resource, at)

    def allows(self, link, permission, resource, at):
        """Whether the words and the boundary of each link down to the root allow it; those of actors don't count."""
        return all(self.words_allow(words, permission) and (rules is None or allows(self.roles, read_rules(rules), permission, resource, at))
                   for words, rules in link.narrowings())

    def words_allow(self, words, permission):
        known = [self.scopes.get(word, []) for word in words.split(' ')]
        return any(what == '*' or permission in what for what in known)

    def denial(self, exp, wif, permission, resource, at):
        """The first rule that denies what is carried, with its place, or none."""
        if exp <= at:
            return 'G4'
        for rule, held in [('G5', [is_enabled(self.pools, pool) for pool in wif['pools']]),
                           ('G6', [is_enabled(self.accounts, account) for account in wif['accounts']]),
                           ('G7', [self.words_allow(words, permission) for words in wif['scopes']]),
                           ('G8', [allows(self.roles, read_rules(rules), permission, resource, at) for rules in wif['bounds']])]:
            if False in held:
                return f'{rule} {held.index(False)}'
        return None if self.grants(wif['who'], permission, resource, at) else 'G9'

    def carried(self, text):
        """The facts that a text carries, in a payload that is written as the service writes it."""
        try:
            payload = verified(self.own, text)
        except Fault as fault:
            raise Fault('G2' if str(fault) == 'Mac' else 'G1') from None
        facts = read_object(payload, 'G3')
        if not self.are_facts(facts) or compact(sorted_members(facts)).encode() != payload:
            raise Fault('G3')
        return facts

    def are_facts(self, facts):
        wif = facts.get('wif')
        if set(facts) - {'act', 'may_act'} != {'exp', 'iat', 'iss', 'jti', 'scope', 'sub', 'wif'} or not isinstance(wif, dict):
            return False
        if set(wif) != {'accounts', 'bounds', 'pools', 'scopes', 'who'} or not all(isinstance(wif[name], list) for name in wif if name != 'who'):
            return False
        jti = facts['jti']
        return (is_count(facts['exp'], LATEST) and is_count(facts['iat'], LATEST) and facts['iss'] == self.config['issuer']
                and isinstance(jti, str) and re.fullmatch('0|[1-9][0-9]{0,9}', jti) is not None and int(jti) < 2 ** 32
                and all(has_form(account, 'account') for account in wif['accounts']) and all(map(are_exact, wif['bounds']))
                and all(has_form(pool, 'pool name') for pool in wif['pools'])
                and wif['scopes'] != [] and all(has_form(words, 'scopes') for words in wif['scopes']) and facts['scope'] == wif['scopes'][-1]
                and is_principal(facts['sub']) and name_of(wif['who']) is not None
                and are_actors(facts, 'act', is_principal) and are_actors(facts, 'may_act', is_actor))

    def grants(self, who, permission, resource, at):
        env = sees(resource, at)
        for upper, bindings in self.policies.items():
            if covers(upper, resource):
                for role, members, condition in bindings:
                    if permission in self.roles[role] and any(names(read_member(one), who) for one in members) and holds(condition, env):
                        return True
        return False

    def admin(self, bearer, at, body):
        if bearer != self.config['admin']:
            raise Fault('U1')
        command = read_object(body, 'A1')
        if command.get('kind') not in ('pool', 'account', 'role', 'scope', 'policy', 'provider'):
            raise Fault('A2')
        self.put(command['kind'], command)
        return {'entry': len(self.texts) - 1}

    def put(self, kind, command):
        for member, form in MEMBERS[kind].items():
            if not (form(command) if callable(form) else has_form(command.get(member), form)):
                raise Fault(f'A3 {member}')
        name, what = NAMED[kind](command), PUT[kind](command)
        table, limit = {'pool': (self.pools, 1000), 'provider': (self.providers, 1000), 'account': (self.accounts, 10000),
                        'role': (self.roles, 1000), 'scope': (self.scopes, 1000), 'policy': (self.policies, 10000)}[kind]
        if kind == 'policy' and any(role not in self.roles for role, _, _ in what) or kind == 'provider' and what['pool'] not in self.pools:
            raise Fault('A4')
        if name not in table and len(table) >= limit:
            raise Fault('A6')
        self.store(journals.command_text(command), 'A7')
        table[name] = what


# Subject tokens.

def signed_claims(provider, text):
    code = 'E16'
    try:
        payload = verified(provider['key'], text)
        code = 'E17'
        return read_claims(payload)
    except Fault as fault:
        raise Fault(f'{code} {fault}') from None


def admitted(provider, name, claims, at):
    """Refuses claims that aren't meant for the provider now."""
    wanted = provider['audiences'] or [name, 'https:' + name]
    for fault, meant in [('Issuer', claims['iss'] == provider['issuer']), ('Audience', any(one in wanted for one in claims['aud'])),
                         ('Expired', at < claims['exp']), ('NotYet', claims.get('nbf', 0) <= at)]:
        if not meant:
            raise Fault(f'E18 {fault}')


def is_full(text):
    return isinstance(text, str) and text != ''


def identity(provider, assertion):
    """The subject, groups and attributes that a provider's mapping gives, or the first fault of it or of the condition."""
    mapped = {key: result(tree, {'assertion': assertion}) for key, tree in sorted(provider['mapping'].items())}
    subject, groups = mapped.pop(SUBJECT_KEY), mapped.pop(GROUPS_KEY, [])
    attributes = {key.removeprefix('attribute.'): value for key, value in mapped.items()}
    rules = [('Subject', is_full(subject)), ('Groups', isinstance(groups, list) and all(map(is_full, groups))),
             *[(f'Attribute {name}', is_full(value)) for name, value in attributes.items()]]
    for fault, is_fit in rules:
        if not is_fit:
            raise Fault(f'E19 {fault}')
    sizes = [(SUBJECT_KEY, fits_in([subject], 127)), (GROUPS_KEY, len(groups) <= 64 and fits_in(groups, 256)),
             *[(f'attribute.{name}', fits_in([value], 256)) for name, value in attributes.items()]]
    for key, is_short in sizes:
        if not is_short:
            raise Fault(f'E19 TooLong {key}')
    google = {'subject': subject, 'groups': groups}
    meets_condition(provider['condition'], {'assertion': assertion, 'google': google, 'attribute': attributes})
    return dict(google, attributes=attributes)


def fits_in(texts, limit):
    return all(len(text.encode()) <= limit for text in texts)


def meets_condition(condition, env):
    if condition is None:
        return
    try:
        value = meaning(condition, env)
    except EvalError:
        value = None
    if not isinstance(value, bool):
        raise Fault('E20 ConditionError')
    if not value:
        raise Fault('E20 ConditionFalse')


# Links.

def fits(link, code):
    """A link that isn't too deep, or the rule on that."""
    if link.depth > DEEPEST:
        raise Fault(code)
    return link


def is_delegate(text):
    return isinstance(text, str) and text.startswith(DELEGATE) and has_form(text.removeprefix(DELEGATE), 'account')


# Commands.

def pool_of(command):
    return command['project'] + '/' + command['pool']


def is_short(value, limit):
    return isinstance(value, str) and 1 <= len(value.encode()) <= limit


def is_key(value):
    try:
        return isinstance(value, str) and 32 <= len(strict_base64(value, 0)) <= 128
    except Fault:
        return False


def is_switch(command):
    return type(command.get('disabled', False)) is bool


def are_audiences(value):
    return isinstance(value, list) and len(value) <= 10 and all(is_short(one, 256) for one in value)


def is_mapping(value):
    return isinstance(value, dict) and SUBJECT_KEY in value and len(value) <= 50 \
        and all(has_form(key, 'mapping key') and isinstance(text, str) for key, text in value.items())


def expression(text, names, wanted, member):
    tree = checked(text, names, wanted)
    if tree is None:
        raise Fault(f'A5 {member}')
    return tree


def provider_of(command):
    """A provider, or the fault of its expressions."""
    wanted = {GROUPS_KEY: ('list', 'string')}
    mapping = {key: expression(text, CLAIMS, wanted.get(key, 'string'), 'mapping') for key, text in command['mapping'].items()}
    condition = expression(command['condition'], MAPPED, 'bool', 'condition') if 'condition' in command else None
    return {'pool': pool_of(command), 'issuer': command['issuer'], 'key': decoded(command['key']), 'mapping': mapping,
            'audiences': command.get('audiences', []), 'condition': condition, 'disabled': command.get('disabled', False)}


def is_condition(value):
    return isinstance(value, dict) and isinstance(value.get('expression'), str)


def bindings_of(command):
    """A policy's bindings, or the fault of their expressions."""
    conditions = [expression(one['condition']['expression'], SEEN, 'bool', 'bindings') if 'condition' in one else None
                  for one in command['bindings']]
    return [(one['role'], one['members'], condition) for one, condition in zip(command['bindings'], conditions)]


# The members of each kind of command, in their order, with their forms; the name under which it is put, and what is put.
MEMBERS = {
    'pool': {'project': 'project', 'pool': 'pool', 'disabled': is_switch},
    'provider': {'project': 'project', 'pool': 'pool', 'provider': 'pool', 'issuer': lambda command: is_short(command.get('issuer'), 256),
                 'key': lambda command: is_key(command.get('key')), 'audiences': lambda command: are_audiences(command.get('audiences', [])),
                 'mapping': lambda command: is_mapping(command.get('mapping')),
                 'condition': lambda command: isinstance(command.get('condition', ''), str), 'disabled': is_switch},
    'account': {'email': 'account', 'disabled': is_switch},
    'role': {'role': 'role', 'permissions': lambda command: are_permissions(command.get('permissions'))},
    'scope': {'scope': 'scope', 'permissions': lambda command: command.get('permissions') == '*' or are_permissions(command.get('permissions'))},
    'policy': {'resource': 'resource', 'bindings': lambda command: are_bindings(command.get('bindings'))},
}
NAMED = {'pool': pool_of, 'provider': provider_name, 'account': lambda command: command['email'], 'role': lambda command: command['role'],
         'scope': lambda command: command['scope'], 'policy': lambda command: command['resource']}
PUT = {'pool': lambda command: not command.get('disabled', False), 'account': lambda command: not command.get('disabled', False),
       'role': lambda command: command['permissions'], 'scope': lambda command: command['permissions'],
       'provider': provider_of, 'policy': bindings_of}


def are_permissions(value):
    return isinstance(value, list) and len(value) <= 256 and all(has_form(one, 'permission') for one in value)


def are_bindings(value):
    return isinstance(value, list) and len(value) <= 64 and all(
        isinstance(one, dict) and has_form(one.get('role'), 'role') and isinstance(one.get('members'), list)
        and len(one['members']) <= 64 and all(read_member(member) is not None for member in one['members'])
        and ('condition' not in one or is_condition(one['condition'])) for one in value)


def are_actors(facts, name, is_text):
    """Whether the member, if there, is actors inside one another and nothing more."""
    if name not in facts:
        return True
    found = chain(facts[name], name, 8, is_text)
    return found is not None and nested(name, found) == facts[name]


def is_principal(text):
    parts = read_member(text)
    return parts is not None and (parts['subject'] is not None or parts['account'] is not None)


def provider_path(audience):
    """PROJECT/POOL/PROVIDER of a provider's full name."""
    words = audience.split('/')
    return '/'.join((words[4], words[8], words[10]))


def name_of(who):
    """The name of who asks, or none where it is nobody of a form."""
    if not isinstance(who, dict):
        return None
    if set(who) == {'account'}:
        return 'serviceAccount:' + who['account'] if has_form(who['account'], 'account') else None
    if set(who) != {'attributes', 'groups', 'pool', 'subject'} or not has_form(who['pool'], 'pool name'):
        return None
    sizes = [(who['subject'], 127)] + [(group, 256) for group in who['groups']] + [(value, 256) for value in who['attributes'].values()]
    if not all(isinstance(text, str) and 1 <= len(text.encode()) <= limit for text, limit in sizes):
        return None
    if not all(has_form(name, 'attribute') for name in who['attributes']):
        return None
    project, _, pool = who['pool'].partition('/')
    return f"principal://iam.googleapis.com/projects/{project}/locations/global/workloadIdentityPools/{pool}/subject/{who['subject']}"


def names(parts, who):
    """Whether a member names who asks."""
    if parts['account'] is not None or 'account' in who:
        return parts['account'] == who.get('account')
    if parts['subject'] is not None:
        return (parts['project'] + '/' + parts['pool'], parts['subject']) == (who['pool'], who['subject'])
    if parts['setproject'] + '/' + parts['setpool'] != who['pool']:
        return False
    if parts['group'] is not None:
        return parts['group'] in who['groups']
    return parts['name'] is None or who['attributes'].get(parts['name']) == parts['value']


def sorted_members(value):
    if isinstance(value, dict):
        return {name: sorted_members(value[name]) for name in sorted(value)}
    return [sorted_members(part) for part in value] if isinstance(value, list) else value


def refusal(text):
    code = text.partition(' ')[0]
    others = {**dict.fromkeys(('U1', 'I1', 'I7'), (401, 'invalid_token')), **dict.fromkeys(('I8', 'I9'), (403, 'permission_denied')),
              'H4': (404, 'not_found'), 'E4': (400, 'unsupported_grant_type'), 'E11': (400, 'invalid_scope'),
              **dict.fromkeys(('E10', 'E14', 'E15'), (400, 'invalid_target')), **dict.fromkeys(('E26', 'I12', 'A7'), (503, 'journal_full'))}
    status, word = others.get(code, (400, 'invalid_argument' if code[0] in 'ACI' else 'invalid_request'))
    return status, {'error': word, 'error_description': text}


def told(value):
    """A reply in a word or two, as the cases state it."""
    if 'error_description' in value:
        return value['error_description']
    if 'reason' in value:
        return value['reason'] + (f" {value['place']}" if 'place' in value else '')
    for name, word in (('access_token', 'issued'), ('accessToken', 'issued'), ('entry', f"entry {value.get('entry')}"), ('allowed', 'allowed')):
        if name in value:
            return word
    return 'active' if value['active'] else 'inactive'


def reply_bytes(status, value):
    text = compact(value).encode()
    return f'{status} {len(text)}\n'.encode() + text + b'\n'
