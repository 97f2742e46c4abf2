"""A plain program that answers the same frames with Python's hmac and json: the yardstick of exchange.sh."""
import base64, hashlib, hmac, json, sys
from urllib.parse import parse_qsl

config = json.load(open(sys.argv[1]))
start = config['start']
decode = lambda text: base64.urlsafe_b64decode(text + '=' * (-len(text) % 4))
encode = lambda data: base64.urlsafe_b64encode(data).rstrip(b'=').decode()
dumps = lambda value: json.dumps(value, separators=(',', ':'), ensure_ascii=False)
own, outside = decode(config['key']), decode(start['key'])
path = f"//iam.googleapis.com/projects/{start['project']}/locations/global/workloadIdentityPools/{start['pool']}"
scope, links = 'https://www.googleapis.com/auth/cloud-platform', []

def mac(key, text):
    return encode(hmac.new(key, text.encode(), hashlib.sha256).digest())

def exchange(form, at):
    signed, _, given = form['subject_token'].rpartition('.')
    if not hmac.compare_digest(mac(outside, signed), given):
        return 400, '{"error":"invalid_request","error_description":"E16 Mac"}'
    claims = json.loads(decode(signed.split('.')[1]))
    name = path + '/providers/' + start['provider']
    if claims['iss'] != start['issuer'] or claims['aud'] not in (name, 'https:' + name) or claims['exp'] <= at:
        return 400, '{"error":"invalid_request","error_description":"E18"}'
    exp, sub = min(claims['exp'], at + 3600), 'principal:' + path + '/subject/' + claims['sub']
    pool = start['project'] + '/' + start['pool']
    who = {'attributes': {}, 'groups': [], 'pool': pool, 'subject': claims['sub']}
    payload = {'exp': exp, 'iat': at, 'iss': config['issuer'], 'jti': str(len(links)), 'scope': scope, 'sub': sub,
               'wif': {'accounts': [], 'bounds': [], 'pools': [pool], 'scopes': [scope], 'who': who}}
    text = encode(b'{"alg":"HS256","typ":"JWT"}') + '.' + encode(dumps(payload).encode())
    token = text + '.' + mac(own, text)
    links.append((token, payload))
    return 200, dumps({'access_token': token, 'expires_in': exp - at, 'issued_token_type': 'urn:ietf:params:oauth:token-type:access_token', 'scope': scope, 'token_type': 'Bearer'})

def introspect(form, at):
    signed, _, given = form['token'].rpartition('.')
    if not hmac.compare_digest(mac(own, signed), given):
        return 200, '{"active":false}'
    token, payload = links[int(json.loads(decode(signed.split('.')[1]))['jti'])]
    if token != form['token'] or payload['exp'] <= at:
        return 200, '{"active":false}'
    told = {name: payload[name] for name in ('exp', 'iat', 'iss', 'jti', 'scope', 'sub')}
    return 200, dumps({'active': True, **told, 'token_type': 'Bearer'})

while head := sys.stdin.buffer.readline():
    route, bearer, at, size = head.decode().split()
    form = dict(parse_qsl(sys.stdin.buffer.read(int(size) + 1)[:-1].decode()))
    status, reply = (exchange if route == '/v1/token' else introspect)(form, int(at))
    sys.stdout.buffer.write(f'{status} {len(reply.encode())}\n{reply}\n'.encode())
