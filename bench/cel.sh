#!/usr/bin/env bash
# Lines a second and the peak of memory of `sts cel` over lines of some 60 bytes, and the time a token of texts of 32
# and of 512 tokens, however they nest. Times are the processor's, so that other work on the machine counts little.
# Where valgrind is there, it counts the instructions a token too, which caches and the C library's heap don't blur.
# Then the instructions that checking types takes beside reading and printing the same text, in each crate's own functions.
# Last what evaluating a condition over claims of 2 kB takes, beside reading its line: two lines differ in a word alone, and
# one of them evaluates the condition 30 times where the other doesn't.
. "$(dirname "$0")/setup.sh"
python3 - "$work" <<'END'
import json, re, resource, shutil, subprocess, sys
work = sys.argv[1]

def used():
    usage = resource.getrusage(resource.RUSAGE_CHILDREN)
    return usage.ru_utime + usage.ru_stime

def run(lines, times):
    with open(work + '/input', 'wb') as f:
        for _ in range(times):
            f.write(lines)
    with open(work + '/input', 'rb') as source, open(work + '/output', 'wb') as sink:
        before = used()
        status = subprocess.run([work + '/sts', 'cel'], stdin=source, stdout=sink).returncode
    if status != 0:
        sys.exit(f'status {status}')
    return used() - before

def line(text, **more):
    return json.dumps({'expr': text, **more}, separators=(',', ':')).encode() + b'\n'

print(f"{'lines':>10} {'bytes/line':>10} {'seconds':>10} {'lines/s':>10} {'peak-KiB':>10}")
some = b''.join(line(text) for text in [
    'assertion.sub.startsWith("repo:octo/") && a == 17',
    'assertion.aud in ["sts.example", "other"] || !test',
    'groups.exists(g, g == "admins") ? "high" : "low"',
    '(assertion.iat + 3600) * 2 <= assertion.exp - 15'])
for count in (10000, 100000, 1000000):
    seconds = run(some, count // 4)
    peak = resource.getrusage(resource.RUSAGE_CHILDREN).ru_maxrss
    print(f'{count:10} {len(some) / 4:10.1f} {seconds:10.3f} {count / seconds:10.0f} {peak:10}', flush=True)

def padded(front, unit, size, back, tokens):
    # so many tokens: as often the unit, of this size, as there is room, and `!` before an operand where one is left
    front_size, back_size = front[1], back[1]
    room = tokens - front_size - back_size - 1
    return front[0] + '!' * (room % size) + 'a' + unit * (room // size) + back[0]

def lists(tokens):
    depth = min(32, tokens // 3)
    return padded(('[' * depth, depth), ',a', 2, (']' * depth, depth), tokens)

def brackets(tokens):
    depth = min(32, tokens // 4)
    return '-(' * depth + '-' * (tokens - 3 * depth - 1) + 'a' + ')' * depth

def products(tokens):
    depth = min(32, tokens // 6)
    return padded(('a*(' * depth, 3 * depth), '+a', 2, (')' * depth, depth), tokens)

shapes = {
    'a+a+a+a': lambda tokens: padded(('', 0), '+a', 2, ('', 0), tokens),
    'a||a||a': lambda tokens: padded(('', 0), '||a', 2, ('', 0), tokens),
    '!!!!a': lambda tokens: '!' * (tokens - 1) + 'a',
    '----a': lambda tokens: '-' * (tokens - 1) + 'a',
    '-(-(--a))': brackets,
    '[[[a,a,a]]]': lists,
    'a*(a*(a+a))': products,
    'a?a:a?a:a': lambda tokens: padded(('', 0), '?a:a', 4, ('', 0), tokens),
    'a.a.a.a': lambda tokens: padded(('', 0), '.a', 2, ('', 0), tokens),
    'a[0][0]': lambda tokens: padded(('', 0), '[0]', 3, ('', 0), tokens),
}
def instructions(lines):
    with open(work + '/input', 'wb') as f:
        f.write(lines)
    with open(work + '/input', 'rb') as source:
        run = subprocess.run(['valgrind', '--tool=callgrind', '--callgrind-out-file=/dev/null', work + '/sts', 'cel'],
                             stdin=source, capture_output=True)
    return int(re.search(rb'refs:\s+([0-9,]+)', run.stderr).group(1).replace(b',', b''))

counted = shutil.which('valgrind') is not None
none = instructions(b'') if counted else 0

def instructions_a_token(text, tokens):
    count = 10240 // tokens
    return (instructions(line(text) * count) - none) / (tokens * count)

print(f"\n{'text':14} {'32: ns/token':>14} {'512: ns/token':>14}" + (f" {'32: instr/token':>16} {'512: instr/token':>16}" if counted else ''))
start = min(run(b'', 0) for _ in range(5))
for name, text in shapes.items():
    costs = []
    for tokens in (32, 512):
        count = 1024000 // tokens
        seconds = min(run(line(text(tokens)), count) for _ in range(3)) - start
        with open(work + '/output', 'rb') as answers:
            if not answers.readline().startswith(b'tree '):
                sys.exit(f'{name} is no text of the grammar')
        costs.append(seconds / (tokens * count) * 1e9)
    row = f'{name:14} {costs[0]:14.0f} {costs[1]:14.0f}'
    if counted:
        row += ''.join(f' {instructions_a_token(text(tokens), tokens):16.0f}' for tokens in (32, 512))
    print(row, flush=True)

def own_instructions(text, names, count):
    # those of each crate's own functions a line; each name is of type dyn
    with open(work + '/input', 'wb') as f:
        f.write(line(text, env=dict.fromkeys(names, 1)) * count)
    with open(work + '/input', 'rb') as source:
        subprocess.run(['valgrind', '--tool=callgrind', '--callgrind-out-file=' + work + '/calls', work + '/sts', 'cel'],
                       stdin=source, capture_output=True, check=True)
    told = subprocess.run(['callgrind_annotate', '--threshold=100', work + '/calls'], capture_output=True, text=True, check=True).stdout
    own = {}
    for number, crate in re.findall(r'^ *([0-9,]+) .*?:(cel_[a-z]+)::', told, re.M):
        own[crate] = own.get(crate, 0) + int(number.replace(',', '')) / count
    return own

if counted:
    print(f"\n{'checked text':24} {'types: instr':>14} {'tokens, grammar, syntax: instr':>32}")
    for name, text in {
            'owner and ref': 'assertion.repository_owner == "octo" && assertion.ref.startsWith("refs/heads/")',
            'a + a + ..': 'a' + '+a' * 250,
            'a < a && ..': ' && '.join(['a < a'] * 100),
            'a.map(x, [x])..': 'a' + '.map(x, [x])' * 20}.items():
        own = own_instructions(text, ('a', 'assertion'), 50)
        reading = sum(own.get(crate, 0) for crate in ('cel_tokens', 'cel_grammar', 'cel_syntax'))
        print(f"{name:24} {own['cel_types']:14.0f} {reading:32.0f}", flush=True)

# texts under the names of a provider's claims
names = ('actor actor_id aud base_ref enterprise environment event_name exp head_ref iat iss job_workflow_ref jti nbf ref '
    'ref_protected ref_type repository repository_id repository_owner repository_owner_id repository_visibility run_attempt '
    'run_id run_number runner_environment sha sub workflow workflow_ref workflow_sha').split()
claims = {name: 'x' * 54 for name in names} | {'ref': 'refs/heads/main', 'repository_owner': 'octo'}
condition = 'assertion.repository_owner == "octo" && assertion.ref.startsWith("refs/heads/")'
times = 30
many = ' && '.join([condition] * times)

def asked(first, text):
    return line(f'{first} ? true : {text}', env={'assertion': claims})

def costs(cost, count):
    # of evaluating the condition once, and of reading a line with it and writing its answer
    evaluated, passed = (cost(asked(first, many), count) for first in ('false', 'true'))
    return (evaluated - passed) / (times * count), cost(asked('true', condition), count) / count

def seconds_of(text, count):
    return min(run(text, count) for _ in range(5)) - start

evaluation, rest = costs(seconds_of, 20000)
with open(work + '/output', 'rb') as answers:
    if answers.read().count(b'\nvalue true\n') != 20000:
        sys.exit('the condition does not hold')
print(f'\n{condition}, over {len(json.dumps(claims, separators=(",", ":")))} bytes of claims')
print(f'evaluated: {evaluation * 1e9:.0f} ns; its line read and answered: {rest * 1e9:.0f} ns')
if counted:
    evaluation, rest = costs(lambda text, count: instructions(text * count) - none, 50)
    print(f'instructions: {evaluation:.0f}; {rest:.0f}')
END
