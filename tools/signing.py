"""Signs tokens (HS256) and writes the frames of a script, with Python's standard library alone.

usage: python3 tools/signing.py CONFIG exchange SUBJECT [AT]              a subject token of the configuration's provider, exchanged
       python3 tools/signing.py CONFIG present PROVIDER CLAIMS [AT]       a subject token with these claims, exchanged; PROVIDER is the
                                                                          command that puts its provider, CLAIMS a JSON object
       python3 tools/signing.py CONFIG narrow TOKEN BOUNDARY [AT]         an access token, exchanged for one with this access boundary, a
                                                                          JSON object
       python3 tools/signing.py CONFIG impersonate TOKEN ACCOUNTS [AT]    a request for a service account's token with an access token;
                                                                          ACCOUNTS is the account, or some with commas between: it
                                                                          is the last, and those before it are the delegates
       python3 tools/signing.py CONFIG act TOKEN ACTOR [AT]               an access token, exchanged by an actor with theirs
       python3 tools/signing.py CONFIG introspect TOKEN [AT]
       python3 tools/signing.py CONFIG check TOKEN PERMISSION RESOURCE [AT]
       python3 tools/signing.py CONFIG admin COMMAND [AT]                 COMMAND is a JSON object
Prints the frame for `sts script CONFIG JOURNAL`. AT is the moment in seconds since 1970, 1700000000 if left out.
"""
import base64
import hashlib
import hmac
import json
import sys
from urllib.parse import quote

HEADER = '{"alg":"HS256","typ":"JWT"}'
AT = 1700000000
OAUTH = 'urn:ietf:params:oauth:'
ACCESS = OAUTH + 'token-type:access_token'


def decoded(text):
    return base64.urlsafe_b64decode(text + '=' * (-len(text) % 4))


def encoded(data):
    return base64.urlsafe_b64encode(data).rstrip(b'=').decode()


def compact(value):
    return json.dumps(value, separators=(',', ':'), ensure_ascii=False)


def mac(key, text):
    return hmac.new(key, text.encode(), hashlib.sha256).digest()


def signed(key, payload, header=HEADER):
    """The compact form of a payload, a text or a value, under a key."""
    payload = payload if isinstance(payload, str) else compact(payload)
    front = encoded(header.encode()) + '.' + encoded(payload.encode())
    return front + '.' + encoded(mac(key, front))


def frame(path, bearer, at, body):
    body = body if isinstance(body, bytes) else body.encode()
    return f'{path} {bearer} {at} {len(body)}\n'.encode() + body + b'\n'


def form(pairs):
    """A form's text: the names as they stand, the values quoted."""
    return '&'.join(name + '=' + quote(value, safe='') for name, value in pairs)


def provider_name(start):
    return f"//iam.googleapis.com/projects/{start['project']}/locations/global/workloadIdentityPools/{start['pool']}/providers/{start['provider']}"


def exchange_pairs(start, token):
    return [('grant_type', OAUTH + 'grant-type:token-exchange'), ('audience', provider_name(start)),
            ('subject_token', token), ('subject_token_type', OAUTH + 'token-type:jwt')]


def presented(provider, told, at):
    """The exchange of a subject token that a provider signs; `told` are its claims beside issuer, audience and times."""
    claims = dict({'iss': provider['issuer'], 'aud': 'https:' + provider_name(provider), 'exp': at + 900, 'iat': at}, **told)
    return frame('/v1/token', '-', at, form(exchange_pairs(provider, signed(decoded(provider['key']), claims))))


def exchanged(token, more, at):
    """The exchange of an access token, with more parameters."""
    return frame('/v1/token', '-', at, form([
        ('grant_type', OAUTH + 'grant-type:token-exchange'), ('subject_token', token), ('subject_token_type', ACCESS), *more]))


def narrowed(token, boundary, at):
    """The exchange of an access token for one that an access boundary, a JSON text, limits."""
    return exchanged(token, [('options', '{"accessBoundary":' + boundary + '}')], at)


def acted(token, actor, at):
    """The exchange of an access token by an actor with another."""
    return exchanged(token, [('actor_token', actor), ('actor_token_type', ACCESS)], at)


def impersonated(token, accounts, at):
    """A request for the token of the last of these accounts, by way of those before it."""
    *delegates, account = accounts.split(',')
    asked = {'delegates': ['projects/-/serviceAccounts/' + one for one in delegates], 'scope': ['https://www.googleapis.com/auth/cloud-platform']}
    return frame(f'/v1/projects/-/serviceAccounts/{account}:generateAccessToken', token, at, compact(asked))


# How many words each verb has behind it.
COUNTS = {'exchange': 1, 'present': 2, 'narrow': 2, 'impersonate': 2, 'act': 2, 'introspect': 1, 'check': 3, 'admin': 1}


def main(words):
    with open(words[0]) as source:
        config = json.load(source)
    start, verb, rest = config.get('start'), words[1], words[2:]
    count = COUNTS[verb]
    at = int(rest[count]) if len(rest) > count else AT
    gate = config['gate']
    if verb == 'exchange':
        made = presented(start, {'sub': rest[0]}, at)
    elif verb == 'present':
        made = presented(json.loads(rest[0]), json.loads(rest[1]), at)
    elif verb == 'narrow':
        made = narrowed(rest[0], rest[1], at)
    elif verb == 'impersonate':
        made = impersonated(rest[0], rest[1], at)
    elif verb == 'act':
        made = acted(rest[0], rest[1], at)
    elif verb == 'introspect':
        made = frame('/v1/introspect', gate, at, 'token=' + rest[0])
    elif verb == 'check':
        made = frame('/v1/check', gate, at, compact(dict(zip(('token', 'permission', 'resource'), rest))))
    else:
        made = frame('/v1/admin', config['admin'], at, rest[0])
    sys.stdout.buffer.write(made)


if __name__ == '__main__':
    if len(sys.argv) < 4 or sys.argv[2] not in COUNTS:
        sys.exit(__doc__)
    main(sys.argv[1:])
