"""Clients and proxies of others against the real program, over loopback with a journal of its own.

usage: python3 tools/http_clients.py PROGRAM [NAME..]

PROGRAM is a built `sts`. Each client exchanges a subject token, has one refused, and introspects its token twice, over one connection where it keeps
connections. It prints a table: each with its version, how many connections its calls took, and what had to be set. NAME is a client of it: without one all
are tried.
A client that isn't there is told as not tried. It ends at the first thing that is wrong, with status 1.

Debian's packages: curl, wget, python3-requests, python3-urllib3, python3-authlib, golang-go with golang-golang-x-oauth2-dev and
golang-golang-x-oauth2-google-dev, nodejs, libwww-perl, openjdk-17-jdk-headless, nginx-light, haproxy, openssl. google-auth is tried where Python finds the
module google.auth.identity_pool, which Debian 12 has not. Run it by /usr/bin/python3 where the modules are Debian's.
"""
import concurrent.futures
import contextlib
import http.client
import importlib
import json
import os
import re
import shutil
import socket
import ssl
import subprocess
import sys
import tempfile
import time
import urllib.error
import urllib.parse
import urllib.request

import journals
from http_requests import connected, free_port, rest_of
from journal_faults import HERE, fail, read, write
from signing import compact, decoded, exchange_pairs, form, provider_name, signed

CLIENTS = os.path.join(HERE, 'tools', 'clients')
CONFIG = os.path.join(HERE, 'examples', 'ci', 'config.json')
ACCOUNT = 'release@octo.iam.gserviceaccount.com'
MOST = 100


class NotThere(Exception):
    """A client, or what it needs, isn't installed."""


class Given:
    """What a client is given: the service's address, the gate's bearer, and a form that is granted and one that isn't, also as files."""

    def __init__(self, base, folder, config, provider):
        self.base, self.folder, self.gate, self.provider, self.config, self.trusted = base, folder, config['gate'], provider, config, None
        now = int(time.time())
        claims = {'iss': provider['issuer'], 'aud': 'https:' + provider_name(provider), 'exp': now + 900, 'iat': now, 'sub': 'repo:octo/app',
                  'repository': 'octo/app', 'teams': ['builders'], 'ref': 'refs/heads/main'}
        self.tokens = [signed(decoded(key), claims) for key in (provider['key'], config['key'])]
        self.good, self.bad = (form(exchange_pairs(provider, token)) for token in self.tokens)
        self.files = [self.file(name, text) for name, text in (('good', self.good), ('bad', self.bad))]

    def file(self, name, text):
        path = os.path.join(self.folder, name)
        write(path, text.encode())
        return path

    def introspection(self, token):
        return form([('token', token)])

    def curl(self, *more):
        return ['curl', '-s', '-S', *(['--cacert', self.trusted] if self.trusted else []), *more]

    def connection(self):
        host = self.base.partition('//')[2]
        if self.trusted:
            return http.client.HTTPSConnection(host, timeout=60, context=ssl.create_default_context(cafile=self.trusted))
        return http.client.HTTPConnection(host, timeout=60)


# The service.

@contextlib.contextmanager
def served(program, folder):
    """A service with the commands of the build system behind it; gives its address, and a call that ends it and tells its connections."""
    with open(CONFIG) as source:
        config = json.load(source)
    with open(os.path.join(HERE, 'examples', 'ci', 'commands')) as source:
        commands = source.read().splitlines()
    journal, port = os.path.join(folder, 'journal'), free_port()
    write(journal, journals.file_of([]))
    server = subprocess.Popen([program, 'listen', CONFIG, journal, str(port), str(MOST)], stdout=subprocess.DEVNULL)
    try:
        connected(server, port).close()
        one = http.client.HTTPConnection('127.0.0.1', port, timeout=60)
        for command in commands:
            one.request('POST', '/v1/admin', command, {'Content-Type': 'application/json', 'Authorization': 'Bearer ' + config['admin']})
            if one.getresponse().read()[:8] != b'{"entry"':
                fail('a command is refused:', command)
        one.close()
        yield Given(f'http://127.0.0.1:{port}', folder, config, json.loads(commands[1])), lambda: MOST - 2 - left(server, port)
    finally:
        server.kill()
        server.wait()


def left(server, port):
    """How many connections the service still serves before it ends by itself."""
    count = 0
    while server.poll() is None:
        try:
            with socket.create_connection(('127.0.0.1', port), timeout=60) as one:
                one.shutdown(socket.SHUT_WR)
                count += rest_of(one) == b''
        except OSError:
            time.sleep(0.05)
    if server.returncode != 0:
        fail('behind its connections the service ends with status', server.returncode)
    return count


# Clients. Each gives the lines `exchange STATUS TOKEN`, `refused STATUS CODE` and twice `introspect STATUS ACTIVE`, each as its words.

def needs(*programs):
    for one in programs:
        if not shutil.which(one):
            raise NotThere(one)


def module(name):
    try:
        return importlib.import_module(name)
    except ImportError:
        raise NotThere(name) from None


def out(words, **more):
    done = subprocess.run(words, capture_output=True, text=True, timeout=120, **more)
    if done.returncode != 0:
        fail(words, done.returncode, done.stderr[-2000:])
    return done.stdout


def lines(text):
    return [line.split(' ', 2) for line in text.splitlines()]


def fields(bearer):
    found = {'Content-Type': 'application/x-www-form-urlencoded'}
    return dict(found, Authorization='Bearer ' + bearer) if bearer else found


def called(given, post):
    """The four calls by a function that posts a form to a path with a bearer, or none, and gives the status and the body."""
    status, body = post('/v1/token', None, given.good)
    token = json.loads(body)['access_token']
    refused, said = post('/v1/token', None, given.bad)
    told = [post('/v1/introspect', given.gate, given.introspection(token)) for _ in range(2)]
    return [['exchange', str(status), token], ['refused', str(refused), json.loads(said)['error_description']],
            *[['introspect', str(number), str(json.loads(text)['active']).lower()] for number, text in told]]


def by_curl(given):
    needs('curl')

    def exchanged(body):
        body, status = out(given.curl('-w', '\n%{http_code}', '--data-binary', '@-', given.base + '/v1/token'), input=body).rsplit('\n', 1)
        return status, json.loads(body)

    status, issued = exchanged(given.good)
    token = issued['access_token']
    refused, said = exchanged(given.bad)
    # One run for both, with the form in its words: it posts it to either address, over one connection.
    told = out(given.curl('-w', '\n%{http_code}\n', '-H', 'Authorization: Bearer ' + given.gate, '-d', given.introspection(token),
                          *[given.base + '/v1/introspect'] * 2)).splitlines()
    return [['exchange', status, token], ['refused', refused, said['error_description']],
            *[['introspect', number, str(json.loads(text)['active']).lower()] for number, text in zip(told[1::2], told[::2])]]


def by_wget(given):
    needs('wget')

    def post(path, bearer, body):
        done = subprocess.run(['wget', '-q', '-S', '-O', '-', '--content-on-error', *(['--header', 'Authorization: Bearer ' + bearer] if bearer else []),
                               '--post-data', body, given.base + path], capture_output=True, text=True, timeout=120)
        return re.findall('HTTP/1.1 ([0-9]+)', done.stderr)[-1], done.stdout

    return called(given, post)


def by_http_client(given):
    one = given.connection()

    def post(path, bearer, body):
        one.request('POST', path, body, fields(bearer))
        answer = one.getresponse()
        return answer.status, answer.read()

    try:
        return called(given, post)
    finally:
        one.close()


def by_urllib(given):
    def post(path, bearer, body):
        # The type is its own default.
        request = urllib.request.Request(given.base + path, body.encode(), {'Authorization': 'Bearer ' + bearer} if bearer else {})
        try:
            with urllib.request.urlopen(request, timeout=60) as answer:
                return answer.status, answer.read()
        except urllib.error.HTTPError as refusal:
            return refusal.code, refusal.read()

    return called(given, post)


def by_requests(given):
    with module('requests').Session() as session:
        session.trust_env = False

        def post(path, bearer, body):
            answer = session.post(given.base + path, data=body, headers=fields(bearer), timeout=60)
            return answer.status_code, answer.text

        return called(given, post)


def by_urllib3(given):
    with module('urllib3').PoolManager() as pool:
        def post(path, bearer, body):
            answer = pool.request('POST', given.base + path, body=body, headers=fields(bearer))
            return answer.status, answer.data

        return called(given, post)


def by_authlib(given):
    library = module('authlib.integrations.requests_client')

    def exchanged(text):
        parameters = dict(urllib.parse.parse_qsl(text))
        return session.fetch_token(given.base + '/v1/token', grant_type=parameters.pop('grant_type'), **parameters)['access_token']

    def bearer(asked):
        asked.headers['Authorization'] = 'Bearer ' + given.gate
        return asked

    with library.OAuth2Session(client_id='any', token_endpoint_auth_method='none') as session:
        session.trust_env = False
        token = exchanged(given.good)
        try:
            exchanged(given.bad)
            fail('authlib takes a refusal for a token')
        except module('authlib.integrations.base_client').OAuthError as refusal:
            said = refusal.description
        told = [session.introspect_token(given.base + '/v1/introspect', token=token, auth=bearer) for _ in range(2)]
        return [['exchange', '200', token], ['refused', '400', said],
                *[['introspect', str(one.status_code), str(one.json()['active']).lower()] for one in told]]


def go(given, name):
    """A program in Go, built."""
    needs('go')
    if not os.path.isdir('/usr/share/gocode/src/golang.org/x/oauth2'):
        raise NotThere('golang-golang-x-oauth2-dev')
    program = os.path.join(given.folder, name)
    out(['go', 'build', '-o', program, os.path.join(CLIENTS, name + '.go')],
        env=dict(os.environ, GO111MODULE='off', GOPATH='/usr/share/gocode', GOCACHE=os.path.join(given.folder, 'cache'), GOFLAGS=''))
    return program


def by_go(given, kind='net'):
    return lines(out([go(given, 'plain'), kind, given.base, given.gate, *given.files]))


def by_go_oauth2(given):
    return by_go(given, 'oauth2')


def by_go_external(given):
    """Google's library: a token, one for a service account, and one that is refused."""
    if not os.path.isdir('/usr/share/gocode/src/golang.org/x/oauth2/google'):
        raise NotThere('golang-golang-x-oauth2-google-dev')
    program = go(given, 'external')

    def asked(subject, **more):
        file = given.file('subject', subject)
        told = {'type': 'external_account', 'audience': provider_name(given.provider), 'subject_token_type': 'urn:ietf:params:oauth:token-type:jwt',
                'token_url': 'https://sts.googleapis.com/v1/token', 'credential_source': {'file': file}, **more}
        return out([program, given.base, given.file('credentials', compact(told))])

    found = [asked(given.tokens[0]), asked(given.tokens[0], service_account_impersonation_url=(
        f'https://iamcredentials.googleapis.com/v1/projects/-/serviceAccounts/{ACCOUNT}:generateAccessToken'))]
    tokens = [line.split()[1] for line in found if line.startswith('token ')]
    refused = re.search('status code ([0-9]+): .*"error_description":"([^"]*)"', asked(given.tokens[1]))
    if len(tokens) != 2 or not refused:
        fail('by the library of Google for Go', found, refused)
    return [['exchange', '200', tokens[0]], ['refused', refused[1], refused[2]], *[introspected(given, token) for token in tokens]]


def introspected(given, token):
    """A line of introspection by Python's own client, for those that can't introspect."""
    one = given.connection()
    one.request('POST', '/v1/introspect', given.introspection(token), dict(fields(given.gate), Connection='close'))
    answer = one.getresponse()
    return ['introspect', str(answer.status), str(json.loads(answer.read())['active']).lower()]


def by_google_auth(given):
    identity_pool, transport = module('google.auth.identity_pool'), module('google.auth.transport.requests')

    def refreshed(subject):
        found = identity_pool.Credentials(audience=provider_name(given.provider), subject_token_type='urn:ietf:params:oauth:token-type:jwt',
                                          token_url=given.base + '/v1/token', credential_source={'file': given.file('subject', subject)},
                                          scopes=['https://www.googleapis.com/auth/cloud-platform'])
        found.refresh(transport.Request())
        return found.token

    token = refreshed(given.tokens[0])
    try:
        refreshed(given.tokens[1])
        fail('google-auth takes a refusal for a token')
    except module('google.auth.exceptions').OAuthError as refusal:
        said = re.search('E[0-9]+ [A-Za-z]+', str(refusal))
    return [['exchange', '200', token], ['refused', '400', said[0]], *[introspected(given, token) for _ in range(2)]]


def by_node(given):
    needs('node')
    if int(out(['node', '--version'])[1:].split('.')[0]) < 18:
        raise NotThere('node 18')
    return lines(out(['node', os.path.join(CLIENTS, 'plain.mjs'), given.base, given.gate, *given.files]))


def by_lwp(given):
    needs('perl')
    if subprocess.run(['perl', '-MLWP::UserAgent', '-e', '1'], capture_output=True).returncode != 0:
        raise NotThere('LWP::UserAgent')
    return lines(out(['perl', os.path.join(CLIENTS, 'plain.pl'), given.base, given.gate, *given.files]))


def by_java(given):
    needs('java', 'javac')
    return lines(out(['java', os.path.join(CLIENTS, 'Plain.java'), given.base, given.gate, *given.files]))


# Proxies.

@contextlib.contextmanager
def started(words, port):
    """A proxy of this process's own, ended by its id."""
    one = subprocess.Popen(words, stdout=subprocess.DEVNULL, stderr=subprocess.DEVNULL)
    try:
        connected(one, port).close()
        yield
    finally:
        one.terminate()
        one.wait(30)


def behind(given, port, in_chunks):
    """The calls over TLS by way of a proxy in front of the service, an exchange in chunks that has this status, and thirty introspections at once."""
    proxied = Given(f'https://127.0.0.1:{port}', given.folder, given.config, given.provider)
    proxied.trusted = os.path.join(given.folder, 'tls.pem')
    found = by_curl(proxied)
    status = out(proxied.curl('-o', os.devnull, '-w', '%{http_code}', '-H', 'Transfer-Encoding: chunked', '--data-binary', '@' + proxied.files[0],
                              proxied.base + '/v1/token'))
    if status != in_chunks:
        fail('an exchange in chunks has status', status)
    with concurrent.futures.ThreadPoolExecutor(30) as pool:
        told = list(pool.map(lambda _: introspected(proxied, found[0][2]), range(30)))
    if any(line != ['introspect', '200', 'true'] for line in told):
        fail('thirty at once', told)
    return found


def operating(begin, given, changes):
    """The block of docs/OPERATING.md that begins so, with its ports and files changed; the certificate is one that was just made."""
    with open(os.path.join(HERE, 'docs', 'OPERATING.md')) as source:
        found = re.search('```\n(' + re.escape(begin) + '.*?)```', source.read(), re.DOTALL)
    text = found[1] if found else fail('docs/OPERATING.md has no block that begins with', begin)
    certificate, key, both = (os.path.join(given.folder, name) for name in ('tls.pem', 'tls.key', 'both.pem'))
    out(['openssl', 'req', '-x509', '-newkey', 'rsa:2048', '-nodes', '-days', '2', '-subj', '/CN=sts.example', '-addext', 'subjectAltName=IP:127.0.0.1',
         '-out', certificate, '-keyout', key])
    write(both, read(certificate) + read(key))
    for old, new in [*changes, ('127.0.0.1:8080', given.base.removeprefix('http://')), ('/etc/sts', given.folder)]:
        if old not in text:
            fail('docs/OPERATING.md has not', old)
        text = text.replace(old, new)
    return text


def by_nginx(given):
    """As docs/OPERATING.md has it, but for the ports and files."""
    needs('nginx', 'openssl')
    port, folder = free_port(), given.folder
    server = operating('limit_req_zone', given, [('listen 443 ssl;', f'listen 127.0.0.1:{port} ssl;')])
    os.chmod(folder, 0o755)
    paths = ''.join(f'    {kind}_temp_path {folder}/{kind};\n' for kind in ('client_body', 'proxy', 'fastcgi', 'uwsgi', 'scgi'))
    path = given.file('nginx.conf', f'pid {folder}/nginx.pid;\nevents {{}}\nhttp {{\n    access_log off;\n{paths}{server}}}\n')
    with started(['nginx', '-e', f'{folder}/nginx.log', '-c', path, '-g', 'daemon off;'], port):
        return behind(given, port, '200')


def by_haproxy(given):
    """The same."""
    needs('haproxy', 'openssl')
    port = free_port()
    path = given.file('haproxy.cfg', operating('defaults\n    mode http', given, [('bind :443', f'bind 127.0.0.1:{port}')]))
    with started(['haproxy', '-db', '-f', path], port):
        return behind(given, port, '501')


# What is tried: a name, the client, its version, what it sends over how many connections, and what had to be set.

def version(*words):
    def told():
        done = subprocess.run(words, capture_output=True, text=True)
        found = re.search(r'\d+\.\d+(\.\d+)*', done.stdout + done.stderr)
        return found[0] if found else '?'
    return told


def module_version(name):
    return lambda: getattr(module(name), '__version__', '?')


def python_version():
    return '.'.join(map(str, sys.version_info[:3]))


TRIED = [
    ('curl', by_curl, version('curl', '--version'), 'nothing'),
    ('wget', by_wget, version('wget', '--version'), '`--content-on-error` to see a refusal\'s body'),
    ('http.client', by_http_client, python_version, 'Content-Type'),
    ('urllib', by_urllib, python_version, 'nothing'),
    ('requests', by_requests, module_version('requests'), 'Content-Type, where the form is a text and no dict'),
    ('urllib3', by_urllib3, module_version('urllib3'), 'Content-Type'),
    ('authlib', by_authlib, module_version('authlib'), '`grant_type` and its parameters, `token_endpoint_auth_method` none; a bearer for introspection'),
    ('net/http', by_go, version('go', 'version'), 'Content-Type'),
    ('x/oauth2', by_go_oauth2, version('dpkg-query', '-W', 'golang-golang-x-oauth2-dev'), '`EndpointParams` with `grant_type`, `AuthStyleInParams`'),
    ('x/oauth2/google', by_go_external, version('dpkg-query', '-W', 'golang-golang-x-oauth2-google-dev'),
     'a transport that sends Google\'s two addresses to the service'),
    ('google-auth', by_google_auth, lambda: module('google.auth.version').__version__, '`token_url`'),
    ('fetch', by_node, version('node', '--version'), '`Connection: close`: it opens a connection a call and keeps each for 4 s'),
    ('LWP', by_lwp, version('perl', '-MLWP::UserAgent', '-e', 'print $LWP::UserAgent::VERSION'), 'Content-Type, where the form is a text'),
    ('java.net.http', by_java, version('java', '-version'), 'Content-Type'),
    ('nginx', by_nginx, version('nginx', '-v'), 'as docs/OPERATING.md has it'),
    ('haproxy', by_haproxy, version('haproxy', '-v'), 'as docs/OPERATING.md has it'),
]


def is_right(found):
    kinds = [line[0] for line in found] == ['exchange', 'refused', 'introspect', 'introspect']
    return kinds and found[0][1] == '200' and found[0][2].count('.') == 2 and found[1][1:] == ['400', 'E16 Mac'] \
        and all(line[1:] == ['200', 'true'] for line in found[2:])


def main(program, names):
    print('| Client | Version | Connections | Had to be set |\n|---|---|---|---|')
    for name, client, of_version, settings in TRIED:
        if names and name not in names:
            continue
        with tempfile.TemporaryDirectory() as folder:
            try:
                with served(os.path.abspath(program), folder) as (given, connections):
                    found = client(given)
                    if not is_right(found):
                        fail('by', name, found)
                    print(f'| `{name}` | {of_version()} | {connections()} | {settings} |', flush=True)
            except NotThere as missing:
                print(f'| `{name}` | not tried: {missing} isn\'t there | | |', flush=True)


if __name__ == '__main__':
    if len(sys.argv) < 2 or not set(sys.argv[2:]) <= {one[0] for one in TRIED}:
        sys.exit(__doc__)
    main(sys.argv[1], sys.argv[2:])
