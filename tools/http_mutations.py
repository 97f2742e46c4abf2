"""Requests of HTTP to the service for tools/http_requests.py: good ones of each kind, and ones that are changed, drawn from a random source."""
import json
import os
import time

from signing import acted, compact, decoded, exchange_pairs, form, frame, impersonated, narrowed, presented, signed

HERE = os.path.dirname(os.path.dirname(os.path.abspath(__file__)))
BUCKET = '//storage.googleapis.com/projects/_/buckets/artifacts'
ACCOUNT = 'release@octo.iam.gserviceaccount.com'
ROBOT = 'principal://iam.googleapis.com/projects/1234/locations/global/workloadIdentityPools/ci-pool/subject/robot'
PATHS = ['/v1/token', '/v1/introspect', '/v1/check', '/v1/admin', f'/v1/projects/-/serviceAccounts/{ACCOUNT}:generateAccessToken']
TARGETS = ['/', '/v1', '/v1/none', '/v1/token/', '//v1/token', '/v1/Token', '/v1/%74oken', '*', 'http://sts.example/v1/token',
           '/v1/introspect?', '?', '/v1/introspect?token=a', '/v1/check?a?b', '/v1/projects/-/serviceAccounts/:generateAccessToken',
           '/v1/projects/-/serviceAccounts/a/b:generateAccessToken', '/v1/projects/-/serviceAccounts/a@b:generateAccessToken?x',
           '/v1/projects/-/serviceAccounts/a:generateIdToken', '/v1/introspect?a="b"', '/v1/introspect#a', '/v1/introspect?{}',
           '/v1/introspect?\\', '/v1/\u00e9', '/v1/introspect?\u00c3\u00a9', '/' + 'a' * 2047, '/' + 'a' * 2048,
           '/v1/introspect?' + 'a' * 2033, '/v1/introspect?' + 'a' * 2034, '/' + 'a' * 17000]
METHODS = ['GET', 'HEAD', 'PUT', 'OPTIONS', 'CONNECT', 'post', 'POST ', ' POST', '', 'PO ST', 'P\u00f6ST', 'POSTPOST', 'M-SEARCH',
           'A' * 20000, '(', "!#$%&'*+-.^_`|~"]
VERSIONS = ['HTTP/1.0', 'HTTP/1.2', 'HTTP/2', 'HTTP/2.0', 'HTTP/0.9', 'http/1.1', 'HTTP/1.1 ', 'HTTP/11', 'HTTP/1.10', 'HTTP/1.',
            'HTTPS/1.1', '', 'HTTP/1.1x']
LENGTHS = ['', '0', '00', '+5', '-1', '5 5', '5,5', '0x5', '5.0', '1e1', '65536', '65537', '99999999999999999999999', '\u0665', '7;a']
MEDIA = ['', 'text/plain', 'application/json', 'application/x-www-form-urlencoded', 'application/json;charset=utf-8',
         'application/json ; a', 'application/json;', ';application/json', 'application/json, application/json', 'APPLICATION/JSON',
         'application/x-www-form-urlencoded;', 'application/ json', 'application/x-www-form-urlencoded; charset=UTF-8',
         'multipart/form-data; boundary=a', 'application/x-www-form-urlencoded\t;a', '"application/json"']
FIELDS = [('Transfer-Encoding', 'chunked'), ('Transfer-Encoding', 'identity'), ('transfer-encoding', ''), ('Content-Encoding', 'gzip'),
          ('Content-Encoding', ''), ('Content-Encoding', 'identity'), ('content-encoding', 'IDENTITY'),
          ('Content-Encoding', 'identity, identity'), ('Connection', 'close'), ('Connection', 'CLOSE'), ('connection', 'keep-alive'),
          ('Connection', 'keep-alive, close'), ('Connection', 'close, te'), ('Connection', 'closed'), ('Connection', ''),
          ('Connection', 'upgrade'), ('Upgrade', 'h2c'), ('Host', ''), ('Host', 'a'), ('Expect', '100-continue'),
          ('Keep-Alive', 'timeout=5'), ('Authorization', 'Basic YTpi'), ('Authorization', 'Bearer'), ('Authorization', 'Bearer '),
          ('Authorization', 'Bearer a b'), ('X', '\u00e9'), ('X', '\x01'), ('X', '\x00'), ('X', '\x7f'), ('X', 'a\tb'), ('X', '\r'),
          ('X', 'a\rb'), ('X ', 'a'), (' X', 'a'), ('', 'a'), ('X:', 'a'), ('X\u00e9', 'a'), ('X(', 'a'), ('X', 'a' * 9000),
          ('X', 'a' * 17000), ('X' * 9000, 'a'), ('X' * 17000, 'a'), ('X', ' ' * 3000), ('X', '\n a')]


class Request:
    """The parts of a request; its length is told by its fields."""

    def __init__(self, path, bearer, body):
        media = 'application/x-www-form-urlencoded' if path in PATHS[:2] else 'application/json'
        self.method, self.target, self.version, self.end, self.front, self.body = 'POST', path, 'HTTP/1.1', '\r\n', '', body
        self.fields = [['Host', 'sts.example'], ['Content-Type', media], ['Content-Length', str(len(body))]]
        if bearer != '-':
            self.fields.append(['Authorization', 'Bearer ' + bearer])

    def put(self, name, value):
        """The first field of a name gets another value, and one that isn't there is added."""
        for field in self.fields:
            if field[0].lower() == name.lower():
                field[1] = value
                return
        self.fields.append([name, value])

    def bytes(self):
        line = f'{self.method} {self.target} {self.version}'
        head = self.front + ''.join(one + self.end for one in [line, *(f'{name}: {value}' for name, value in self.fields), ''])
        return head.encode('latin-1', 'replace') + self.body


def framed(made):
    """The request that a frame is."""
    head, rest = made.split(b'\n', 1)
    path, bearer, _, size = head.decode().split(' ')
    return Request(path, bearer, rest[:int(size)])


def claims_of(sub):
    return {'sub': sub, 'repository': 'octo/app', 'teams': ['builders'], 'ref': 'refs/heads/main', 'may_act': {'sub': ROBOT}}


class Requests:
    """A source of requests; `learn` gives it the tokens that were issued."""

    def __init__(self, chance, config):
        self.chance, self.config, self.tokens = chance, config, []
        with open(os.path.join(HERE, 'examples', 'ci', 'commands')) as source:
            self.commands = source.read().splitlines()
        self.provider = json.loads(self.commands[1])

    def learn(self, service):
        self.tokens = list(service.issued)

    def token(self):
        """Mostly one that was issued; else one with a byte changed, cut or none."""
        kind = self.chance.random()
        if not self.tokens or kind < 0.1:
            return self.chance.choice(['', 'a', 'a.b.c', '%', 'eyJhbGciOiJIUzI1NiIsInR5cCI6IkpXVCJ9.e30.' + 'A' * 43])
        text = self.chance.choice(self.tokens[-8:])
        at = self.chance.randrange(len(text))
        return text[:at] + self.chance.choice('Aa.-') + text[at + 1:] if kind < 0.2 else text[:at] if kind < 0.25 else text

    def secret(self, name):
        return self.config[name] if self.chance.random() < 0.9 else self.chance.choice(['-', 'a', self.config['gate'], self.config['admin'] + '1'])

    # Kinds of requests.

    def introspected(self):
        return Request('/v1/introspect', self.secret('gate'), self.chance.choice([
            *[form([('token', self.token())])] * 6, form([('token', self.token()), ('token_type_hint', 'access_token')]), 'token=a&token=b', 'tokens=a',
            'token=%ff', '']).encode())

    def checked(self):
        permission = self.chance.choice(['storage.objects.create', 'storage.objects.get', 'storage.objects.get', 'storage'])
        asked = {'token': self.token(), 'permission': permission,
                 'resource': self.chance.choice([BUCKET, BUCKET, BUCKET + '/objects/app.tar', '//storage.googleapis.com', '/a', 3])}
        if self.chance.random() < 0.1:
            del asked[self.chance.choice(list(asked))]
        return Request('/v1/check', self.secret('gate'), compact(asked).encode())

    def commanded(self):
        number = self.chance.randrange(20)
        return Request('/v1/admin', self.secret('admin'), self.chance.choice([
            *self.commands, compact({'kind': 'scope', 'scope': f'scope.{number}', 'permissions': ['storage.objects.get']}),
            compact({'kind': 'pool', 'project': '1234', 'pool': 'other-pool', 'disabled': number % 2 == 0}),
            '{"kind":"pool"}', '{"kind":"none"}', '[]', '{', '',
            compact({'kind': 'account', 'email': f'a{number}@octo.iam.gserviceaccount.com', 'disabled': number % 2 == 0})]).encode())

    def presented(self):
        """A subject token of one of the two providers, mostly a good one."""
        now, sub = int(time.time()), self.chance.choice(['robot', 'robot', 'one', 'two', ''])
        branch = self.chance.choice(['main', 'main', 'next'])
        claims = dict(claims_of(sub), ref='refs/heads/' + branch)
        claims.update(self.chance.choice([{}, {}, {}, {}, {'exp': now - 100}, {'nbf': now + 1000}, {'iss': 'a'}, {'aud': 'a'}, {'exp': 'a'}]))
        if self.chance.random() < 0.5:
            return framed(presented(self.provider, claims, now))
        start = dict(self.config['start'], key=self.chance.choice([self.config['start']['key']] * 5 + [self.config['key']]))
        return framed(presented(start, claims, now))

    def derived(self):
        now, rule = int(time.time()), {'availableResource': BUCKET, 'availablePermissions': ['inRole:roles/artifacts.reader']}
        boundary = {'accessBoundaryRules': [rule]}
        return framed(self.chance.choice([narrowed(self.token(), compact(boundary), now), narrowed(self.token(), '{}', now),
                                          acted(self.token(), self.token(), now), impersonated(self.token() or '-', ACCOUNT, now)]))

    def introspection(self):
        """One that is good and has a token that isn't."""
        return Request('/v1/introspect', self.config['gate'], b'token=a').bytes()

    def setup(self):
        """The commands of a build system and some exchanges."""
        put = [Request('/v1/admin', self.config['admin'], one.encode()).bytes() for one in self.commands]
        return b''.join(put + [framed(presented(self.provider, claims_of('robot'), int(time.time()))).bytes() for _ in range(3)])

    def drawn(self):
        kinds = [self.introspected, self.checked, self.commanded, self.presented, self.derived]
        return self.chance.choices(kinds, [5, 4, 3, 3, 3])[0]()

    def good(self):
        """A request that no rule of HTTP refuses and behind which the connection goes on, written in some of the ways in which it may be."""
        one = self.drawn()
        if self.chance.random() < 0.3:
            one.fields = [[self.chance.choice([name, name.lower(), name.upper()]),
                           self.chance.choice(['', ' ', '\t ']) + value + self.chance.choice(['', ' '])] for name, value in one.fields]
            self.chance.shuffle(one.fields)
            one.end, one.front = self.chance.choice(['\r\n', '\n']), self.chance.choice(['', '', '\r\n'])
            one.fields += [[f'X-{number}', 'a'] for number in range(self.chance.choice([0, 1, 20, 60]))]
        return one.bytes()

    def stream(self, is_cut):
        """The bytes of a connection."""
        found = [self.mutated() if self.chance.random() < 0.2 else self.good() for _ in range(self.chance.randint(1, 9))]
        if is_cut:
            found[-1] = found[-1][:self.chance.randrange(len(found[-1]) + 1)]
        return b''.join(found)

    # Changes.

    def mutated(self):
        one = self.drawn()
        for _ in range(self.chance.choice([1, 1, 1, 2])):
            self.chance.choice([self.other_word, self.other_field, self.other_body, self.other_lines])(one)
        data = one.bytes()
        return self.other_bytes(data) if self.chance.random() < 0.3 else data

    def other_word(self, one):
        kind = self.chance.randrange(4)
        if kind == 0:
            one.method = self.chance.choice(METHODS)
        elif kind == 1:
            one.version = self.chance.choice(VERSIONS)
        elif kind == 2:
            one.target = self.chance.choice(TARGETS)
        else:
            one.target = self.chance.choice(PATHS)

    def other_field(self, one):
        kind = self.chance.randrange(7)
        if kind == 0:
            one.put('Content-Length', self.chance.choice(LENGTHS))
        elif kind == 1:
            one.put('Content-Type', self.chance.choice(MEDIA))
        elif kind == 2:
            known = FIELDS[:self.chance.choice([22, len(FIELDS)])]
            one.fields.insert(self.chance.randint(0, len(one.fields)), list(self.chance.choice(known)))
        elif kind == 3:
            one.fields.append(list(self.chance.choice(one.fields)))
        elif kind == 4:
            one.fields.pop(self.chance.randrange(len(one.fields)))
        elif kind == 5:
            one.fields.append(list(self.chance.choice(FIELDS[:3])))
        else:
            one.fields.append(['Connection', 'close'])

    def other_body(self, one):
        kind, at = self.chance.randrange(4), self.chance.randint(0, len(one.body))
        if kind == 0:
            one.body = one.body[:at] + self.chance.randbytes(1) + one.body[at + 1:]
        elif kind == 1:
            one.put('Content-Length', str(max(0, len(one.body) + self.chance.choice([-9, -1, 1, 9]))))
        elif kind == 2:
            one.body = b'a' * self.chance.choice([65536, 65537, 20000])
            one.put('Content-Length', str(len(one.body)))
        else:
            one.body = one.body[:at]
            one.put('Content-Length', str(at))

    def other_lines(self, one):
        kind = self.chance.randrange(4)
        if kind == 0:
            one.end = self.chance.choice(['\n', '\r', '\n\r', '\r\r\n', ' \r\n', '\r\n\r\n', '\r\n '])
        elif kind == 1:
            one.front = self.chance.choice(['\n', '\r\n', '\r\n\n\r\n', ' ', '\r', ' \r\n', '\0', '\r\n' * 9000, 'a\r\n'])
        elif kind == 2:
            one.fields += [['a', 'b']] * self.chance.choice([60, 61, 62, 63, 64, 65, 200])
        else:
            rest = 16384 - len(one.bytes()) + len(one.body) - len('Y: \r\n') + self.chance.choice([-1, 0, 1])
            one.fields.append(['Y', 'y' * rest])

    def other_bytes(self, data):
        """A byte or a slice anywhere, mostly in the head, is changed."""
        at, kind = self.chance.randrange(min(len(data), self.chance.choice([100, 300, 100_000]))), self.chance.randrange(5)
        if kind == 0:
            return data[:at] + self.chance.randbytes(1) + data[at + 1:]
        if kind == 1:
            return data[:at] + self.chance.choice([b' ', b'\r', b'\n', b'\r\n', b':', b'\0', b'\t', b'\x80']) + data[at:]
        if kind == 2:
            return data[:at] + data[at + self.chance.choice([1, 2, 30]):]
        if kind == 3:
            return data[:at] + data[at:at + 40] + data[at:]
        return data[:at] + bytes([data[at] ^ 1 << self.chance.randrange(8)]) + data[at + 1:]
