#!/usr/bin/env bash
# What a check costs of a token that carries 0, 1, 2, 4 and 8 access boundaries, of one rule with a condition each: the bytes of its
# text, and where valgrind is there the instructions of a check (the mean of 200), and how many these are a byte. The cost is to
# grow at most in proportion to the text.
. "$(dirname "$0")/setup.sh"
python3 - "$top" "$work" <<'END'
import json, shutil, subprocess, sys
top, work = sys.argv[1:]
sys.path[:0] = [top + '/tools', top + '/bench']
from counting import fresh, instructions
from signing import AT, compact, decoded, frame, signed

config = top + '/examples/ci/config.json'
with open(config) as source:
    secrets = json.load(source)
resource = '//storage.example/buckets/one'
rule = {'availabilityCondition': {'expression': 'resource.name.startsWith("buckets/") && request.time < timestamp("2033-05-18T03:33:20Z")'},
        'availablePermissions': ['inRole:roles/reader'], 'availableResource': resource}
members = ['principalSet://iam.googleapis.com/projects/1234/locations/global/workloadIdentityPools/bench-pool/*']
scope = 'https://www.googleapis.com/auth/cloud-platform'
commands = [{'kind': 'pool', 'project': '1234', 'pool': 'bench-pool'},
            {'kind': 'role', 'role': 'roles/reader', 'permissions': ['storage.objects.get']},
            {'kind': 'policy', 'resource': resource, 'bindings': [{'role': 'roles/reader', 'members': members}]}]
world = b''.join(frame('/v1/admin', secrets['admin'], AT, compact(command)) for command in commands)

def token(bounds):
    who = {'attributes': {}, 'groups': [], 'pool': '1234/bench-pool', 'subject': 'one'}
    sub = 'principal://iam.googleapis.com/projects/1234/locations/global/workloadIdentityPools/bench-pool/subject/one'
    wif = {'accounts': [], 'bounds': [[rule]] * bounds, 'pools': ['1234/bench-pool'], 'scopes': [scope] * max(bounds, 1), 'who': who}
    payload = {'exp': AT + 900, 'iat': AT, 'iss': secrets['issuer'], 'jti': '0', 'scope': scope, 'sub': sub, 'wif': wif}
    return signed(decoded(secrets['key']), payload)

print(f"{'boundaries':>10} {'bytes':>7} {'instructions':>13} {'a byte':>7}")
for bounds in (0, 1, 2, 4, 8):
    text = token(bounds)
    asked = frame('/v1/check', secrets['gate'], AT, compact({'token': text, 'permission': 'storage.objects.get', 'resource': resource}))
    with open(work + '/input', 'wb') as f:
        f.write(world + asked)
    with open(work + '/input', 'rb') as source:
        if b'"allowed":true' not in subprocess.run([work + '/sts', 'script', config, fresh(work)], stdin=source, stdout=subprocess.PIPE).stdout:
            sys.exit('a check is denied')
    if shutil.which('valgrind'):
        each = (instructions(work, config, world + asked * 200) - instructions(work, config, world)) / 200
        print(f'{bounds:10} {len(text):7} {each:13.0f} {each / len(text):7.0f}', flush=True)
    else:
        print(f'{bounds:10} {len(text):7}')
END
