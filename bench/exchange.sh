#!/usr/bin/env bash
# Exchanges and introspections a second, of `sts script` and of a plain program in Python over the same frames, and
# an introspection's cost behind 10, 1,000 and 100,000 recorded links. Both must write the same replies.
# Where valgrind is there, then the instructions of an exchange with four mapped attributes and a condition beside one of a bare
# subject (wanted: at most twice as many), and those of a check that a binding with a condition grants beside one without (wanted:
# at most 1.5 times), each over the same claims.
. "$(dirname "$0")/setup.sh"
python3 - "$top" "$work" <<'END'
import subprocess, sys, time
top, work = sys.argv[1:]
config = top + '/examples/first/config.json'
sys.path[:0] = [top + '/tools', top + '/bench']
from counting import fresh, instructions

programs = {'sts': [work + '/sts', 'script', config], 'python': ['python3', top + '/bench/yardstick.py', config]}

def run(program, script):
    with open(work + '/input', 'wb') as f:
        f.write(script)
    with open(work + '/input', 'rb') as source:
        start = time.monotonic()
        replies = subprocess.run(programs[program] + [fresh(work)] * (program != 'python'), stdin=source, stdout=subprocess.PIPE, check=True).stdout
        return time.monotonic() - start, replies

with open(top + '/examples/first/script', 'rb') as f:
    example = f.read()
head, rest = example.split(b'\n', 1)
exchange = head + b'\n' + rest[:int(head.split()[-1]) + 1]

def token(replies):
    return replies.rsplit(b'"access_token":"', 1)[1].split(b'"', 1)[0]

def introspection(text):
    body = b'token=' + text
    return b'/v1/introspect gate-secret-0000001 1700000899 %d\n%s\n' % (len(body), body)

print(f"{'program':8} {'links':>8} {'exchanges/s':>12} {'introspections/s':>17}")
asked = 200000
for links in (10, 1000, 100000):
    told = {}
    for program in programs:
        seconds, replies = run(program, exchange * links)
        again, told[program] = run(program, exchange * links + introspection(token(replies)) * asked)
        rate = f'{links / seconds:12.0f}' if links >= 1000 else ' ' * 12
        print(f'{program:8} {links:8} {rate} {asked / max(again - seconds, 1e-9):17.0f}', flush=True)
    if len(set(told.values())) != 1:
        sys.exit('the programs differ')

import json, shutil
from signing import AT, compact, frame, presented

config = top + '/examples/ci/config.json'
with open(config) as source:
    secrets = json.load(source)
pool = {'project': '1234', 'pool': 'bench-pool'}
members = ['principalSet://iam.googleapis.com/projects/1234/locations/global/workloadIdentityPools/bench-pool/*']
names = ('repository', 'repository_owner', 'ref', 'workflow')
claims = {'sub': 'repo:octo/app:ref:refs/heads/main', 'repository': 'octo/app', 'repository_owner': 'octo', 'ref': 'refs/heads/main',
          'workflow': 'build', 'actor': 'octocat', 'sha': '0' * 40, 'run_id': '1234567890', 'event_name': 'push', 'runner_environment': 'hosted'}

def provider(name, attributes, **more):
    mapping = {'google.subject': 'assertion.sub', **{'attribute.' + one: 'assertion.' + one for one in attributes}}
    return dict({'kind': 'provider', 'provider': name, 'issuer': 'https://bench.example', 'mapping': mapping,
                 'key': 'UFBQUFBQUFBQUFBQUFBQUFBQUFBQUFBQUFBQUFBQUFA'}, **pool, **more)

def policy(resource, **more):
    return {'kind': 'policy', 'resource': resource, 'bindings': [dict({'role': 'roles/reader', 'members': members}, **more)]}

bare, mapped = provider('bare', ()), provider('mapped', names, condition='assertion.repository_owner == "octo" && assertion.ref.startsWith("refs/heads/")')
plain, conditional = policy('//plain.example'), policy('//bound.example', condition={
    'expression': 'resource.name.startsWith("builds/") && request.time < timestamp("2023-11-14T22:28:00Z")'})
commands = [dict({'kind': 'pool'}, **pool), bare, mapped, {'kind': 'role', 'role': 'roles/reader', 'permissions': ['storage.objects.get']},
            plain, conditional]
world = b''.join(frame('/v1/admin', secrets['admin'], AT, compact(command)) for command in commands)

def checked(text, resource):
    asked = {'token': text, 'permission': 'storage.objects.get', 'resource': resource + '/builds/x'}
    return frame('/v1/check', secrets['gate'], AT, compact(asked))

def instructions_each(request, good):
    """The mean of 200 requests behind the world, each of which has a reply like this."""
    with open(work + '/input', 'wb') as f:
        f.write(world + request)
    with open(work + '/input', 'rb') as source:
        if good not in subprocess.run([work + '/sts', 'script', config, fresh(work)], stdin=source, stdout=subprocess.PIPE).stdout:
            sys.exit('a request is refused')
    return (instructions(work, config, world + request * 200) - instructions(work, config, world)) / 200

if shutil.which('valgrind'):
    programs['ci'] = [work + '/sts', 'script', config]
    text = token(run('ci', world + presented(mapped, claims, AT))[1]).decode()
    print(f"\n{'request':32} {'instructions':>14} {'times':>6} {'wanted':>7}")
    for kind, good, simple, other, wanted in [
            ('exchange', b'access_token', presented(bare, claims, AT), presented(mapped, claims, AT), 2),
            ('check', b'"allowed":true', checked(text, '//plain.example'), checked(text, '//bound.example'), 1.5)]:
        first, second = instructions_each(simple, good), instructions_each(other, good)
        print(f"{kind + ', plain':32} {first:14.0f}")
        print(f"{kind + ', with a condition':32} {second:14.0f} {second / first:6.2f} {wanted:7}", flush=True)
END
