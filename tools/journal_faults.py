"""Faults of a journal's file, tried on the real program over real files.

usage: python3 tools/journal_faults.py PROGRAM [kills] [bytes] [full] [limits]

PROGRAM is a built `sts`. Without a further word all four are tried:
kills    the program is killed under load at 200 random moments; the file is then read by a reader apart from the program, and opened again
bytes    a small journal is cut at each place and each bit of each byte is flipped; what the program says of it is compared with a model
full     the journal stands on a small file system that fills up (a tmpfs, so it needs the right to mount one)
limits   the longest text of an entry and one byte more, the longest file and one byte more, and the last record that fits and one byte more
It ends at the first thing that is wrong, with status 1.
"""
import json
import os
import random
import subprocess
import sys
import tempfile
import threading
import time

import journals
import model
from signing import AT, frame

HERE = os.path.dirname(os.path.dirname(os.path.abspath(__file__)))
CONFIG = os.path.join(HERE, 'crates', 'wif_tool', 'data', 'config.json')
FIRST = os.path.join(HERE, 'examples', 'first', 'config.json')
ROUNDS = 200


def config():
    with open(CONFIG) as source:
        return json.load(source)


def read(path):
    with open(path, 'rb') as source:
        return source.read()


def write(path, data):
    with open(path, 'wb') as file:
        file.write(data)


def fail(*what):
    sys.exit('wrong: ' + ' '.join(map(str, what)))


def run(program, *words, data=b''):
    done = subprocess.run([program, *words], input=data, capture_output=True, timeout=120)
    return done.returncode, done.stdout


def command(number):
    """A command, and beside others its text has a length of its own."""
    return {'kind': 'scope', 'permissions': [f'load.items.get{n}' for n in range(1 + number * 7 % 23)], 'scope': f'load.{number % 500}'}


def asked(number):
    return frame('/v1/admin', config()['admin'], AT, journals.text_of(command(number)))


def whole_replies(written):
    """The bodies of the replies that were written whole."""
    found, at = [], 0
    while b'\n' in written[at:]:
        line = written[at:written.index(b'\n', at)]
        start = at + len(line) + 1
        size = int(line.split()[1])
        if len(written) < start + size + 1:
            break
        found.append((int(line.split()[0]), written[start:start + size]))
        at = start + size + 1
    return found


def acknowledged(written, first):
    """How many entries were acknowledged: each reply tells the entry's number."""
    replies = whole_replies(written)
    for number, (status, body) in enumerate(replies):
        if (status, body) != (200, b'{"entry":%d}' % (first + number)):
            fail('a reply', status, body, 'for entry', first + number)
    return len(replies)


def stands(path, count, replies):
    """The number of entries that the file stands for, where it has all that were acknowledged and at most one more."""
    texts, bad = journals.read(read(path))
    if bad is not None:
        fail('the file breaks', bad)
    if texts != [journals.command_text(command(number)) for number in range(len(texts))]:
        fail('another entry stands in the file')
    if not count + replies <= len(texts) <= count + replies + 1:
        fail(len(texts), 'entries stand in the file,', count, 'stood before and', replies, 'were acknowledged')
    return len(texts)


def feed(pipe, first):
    """Asks for entries until the program is gone."""
    try:
        for number in range(first, first + 100_000):
            pipe.write(asked(number))
            pipe.flush()
    except (BrokenPipeError, OSError, ValueError):
        pass


def killed(program, journal, count, delay):
    started = subprocess.Popen([program, 'script', CONFIG, journal], stdin=subprocess.PIPE, stdout=subprocess.PIPE, stderr=subprocess.DEVNULL)
    written = []
    reader = threading.Thread(target=lambda: written.append(started.stdout.read()))
    feeder = threading.Thread(target=feed, args=(started.stdin, count))
    reader.start()
    feeder.start()
    time.sleep(delay)
    started.kill()
    started.wait()
    feeder.join()
    reader.join()
    return acknowledged(written[0], count)


def kills(program, folder):
    journal, count, total, begun = os.path.join(folder, 'journal'), 0, 0, 0
    if run(program, 'init', journal) != (0, b''):
        fail('init')
    chance = random.Random(1)
    for _ in range(ROUNDS):
        replies = killed(program, journal, count, chance.uniform(0.002, 0.08))
        stood = stands(journal, count, replies)
        total, begun, count = total + replies, begun + stood - count - replies, stood
        if run(program, 'script', CONFIG, journal) != (0, b''):
            fail('the file does not open again')
    print(f'kills: {ROUNDS} kills, {total} entries acknowledged and all found, {begun} more that were whole without a reply, none torn')


# What a program should say of a file.

def fault_of(service, text):
    """The rule that a text breaks behind those that the service has, or None where it is recorded."""
    try:
        command = json.loads(text.decode())
        is_exact = isinstance(command, dict) and command.get('kind') in journals.MEMBERS and journals.command_text(command) == text
    except (ValueError, KeyError, TypeError, RecursionError, AttributeError):
        is_exact = False
    try:
        service.admin(service.config['admin'], AT, text)
    except model.Fault as fault:
        return 'J4' if str(fault)[:2] in ('A4', 'A6') and is_exact else 'J3'
    except (ValueError, KeyError, TypeError):
        return 'J3'
    return None if is_exact else 'J3'


def expected(data):
    texts, bad = journals.read(data)
    service = model.Service(config())
    for at, text in zip(journals.places(texts), texts):
        rule = fault_of(service, text)
        if rule is not None:
            return 6, f'fault 6 at {at} rule {rule}\n'.encode()
    return (0, b'') if bad is None else (6, f'fault 6 at {bad[0]} rule {bad[1]}\n'.encode())


SMALL = [
    {'kind': 'pool', 'project': '7', 'pool': 'pool-1'},
    {'kind': 'role', 'role': 'roles/a.b', 'permissions': ['a.b.get']},
    {'kind': 'account', 'email': 'a@b.iam.gserviceaccount.com', 'disabled': True},
    {'kind': 'policy', 'resource': '//a.b/c', 'bindings': [{'role': 'roles/a.b', 'members': ['serviceAccount:a@b.iam.gserviceaccount.com'],
                                                              'condition': {'expression': 'request.time < request.time'}}]},
    {'kind': 'scope', 'scope': 'a', 'permissions': '*'},
]


def spoilt(data):
    """The front of a file at each place, and the file with each of its bits flipped."""
    for at in range(len(data)):
        yield data[:at]
        for bit in range(8):
            yield data[:at] + bytes([data[at] ^ 1 << bit]) + data[at + 1:]


def all_bytes(program, folder):
    journal = os.path.join(folder, 'journal')
    data, tried, told = journals.file_of([journals.command_text(one) for one in SMALL]), 0, {}
    for file in [data, *spoilt(data)]:
        write(journal, file)
        wanted, was = expected(file), run(program, 'script', CONFIG, journal)
        if was != wanted:
            fail('of', file, 'the program says', was, 'and should say', wanted)
        if read(journal) != file:
            fail('the file was changed')
        tried += 1
        rule = wanted[1].split()[-1].decode() if wanted[0] else 'opened'
        told[rule] = told.get(rule, 0) + 1
    print(f'bytes: {tried} files of {len(data)} bytes and fewer, as the model says:', ', '.join(f'{rule} {told[rule]}' for rule in sorted(told)))


def full(program, folder):
    small = os.path.join(folder, 'small')
    os.mkdir(small)
    if subprocess.run(['mount', '-t', 'tmpfs', '-o', 'size=128k', 'tmpfs', small], capture_output=True).returncode:
        print('full: not tried, since no file system may be mounted here')
        return
    try:
        journal = os.path.join(small, 'journal')
        if run(program, 'init', journal) != (0, b''):
            fail('init')
        status, written = run(program, 'script', CONFIG, journal, data=b''.join(asked(number) for number in range(5000)))
        if status != 5:
            fail('a full disk gives status', status)
        stood = stands(journal, 0, acknowledged(written, 0))
        write(os.path.join(folder, 'journal'), read(journal))
    finally:
        subprocess.run(['umount', small], check=True)
    status, written = run(program, 'script', CONFIG, os.path.join(folder, 'journal'), data=asked(stood))
    if status != 0 or acknowledged(written, stood) != 1:
        fail('the journal does not go on elsewhere')
    print(f'full: status 5 behind {stood} entries, each of them found, and the journal goes on elsewhere')


# Texts and files at their limits.

def sized(room, count, least, most):
    """So many sizes from the least to the most that add up to the room."""
    each, more = divmod(room, count)
    sizes = [each + (number < more) for number in range(count)]
    if not least <= min(sizes) <= max(sizes) <= most:
        fail('no sizes for', room)
    return sizes


def scope_of(size):
    """A command whose text has so many bytes, from some 400 to some 31,000."""
    count = max(1, size // 120)
    bare = {'kind': 'scope', 'scope': 'fill', 'permissions': ['load.items.'] * count}
    sizes = sized(size - len(journals.text_of(bare)), count, 1, 117)
    return {**bare, 'permissions': ['load.items.' + 'a' * one for one in sizes]}


def policy_of(size):
    """A command whose text has so many bytes, some 262,144."""
    member = 'serviceAccount:@b.iam.gserviceaccount.com'
    bare = {'kind': 'policy', 'resource': '//fill', 'bindings': [{'role': 'roles/a.b', 'members': [member] * 64}] * 64}
    sizes = sized(size - len(journals.text_of(bare)), 64 * 64, 1, 63)
    members = ['serviceAccount:' + 'a' * one + member[15:] for one in sizes]
    return {**bare, 'bindings': [{'role': 'roles/a.b', 'members': members[at:at + 64]} for at in range(0, 64 * 64, 64)]}


def filled(texts, size):
    """A file of these texts that has so many bytes, with others in front."""
    room, one = size - len(journals.file_of(texts)), journals.text_of(scope_of(30_000))
    count = room // (5 + len(one)) - 1
    rest = room - count * (5 + len(one))
    return journals.file_of([one] * count + [journals.text_of(scope_of(half - 5)) for half in (rest // 2, rest - rest // 2)] + texts)


def opened(program, journal, data, wanted):
    write(journal, data)
    was = run(program, 'script', FIRST, journal)
    if was != wanted:
        fail('of a file of', len(data), 'bytes the program says', was, 'and should say', wanted)


def refused(at, rule):
    return 6, f'fault 6 at {at} rule {rule}\n'.encode()


def recorded_last(program, journal, asking, code):
    """What is asked finds room where its record makes the file as long as may be, and none where it lacks a byte."""
    write(journal, journals.file_of([]))
    if [status for status, _ in whole_replies(run(program, 'script', FIRST, journal, data=asking)[1])] != [200]:
        fail('nothing is recorded')
    size = 5 + len(journals.read(read(journal))[0][0])
    for lacks in (0, 1):
        data = filled([], journals.LONGEST_JOURNAL - size + lacks)
        write(journal, data)
        status, written = run(program, 'script', FIRST, journal, data=asking * 2)
        first, second = whole_replies(written)
        for reply in [second] if lacks == 0 else [first, second]:
            if reply[0] != 503 or code not in reply[1]:
                fail('without room the reply is', reply)
        if status != 0 or (first[0] == 200) != (lacks == 0) or len(read(journal)) != len(data) + size * (lacks == 0):
            fail('with', lacks, 'bytes too few the status is', status, 'and the replies are', first, second)
        if run(program, 'script', FIRST, journal) != (0, b''):
            fail('the full file does not open again')


def limits(program, folder):
    journal, most = os.path.join(folder, 'journal'), journals.LONGEST_TEXT
    role = journals.command_text(SMALL[1])
    opened(program, journal, journals.file_of([role, journals.text_of(policy_of(most))]), (0, b''))
    opened(program, journal, journals.file_of([role, journals.text_of(policy_of(most + 1))]), refused(8 + 5 + len(role), 'J3'))
    last = journals.text_of(scope_of(1000))
    opened(program, journal, filled([last], journals.LONGEST_JOURNAL), (0, b''))
    opened(program, journal, filled([last], journals.LONGEST_JOURNAL + 1), refused(journals.LONGEST_JOURNAL + 1 - 1 - 5 - len(last), 'J5'))
    with open(FIRST) as source:
        admin = json.load(source)['admin']
    recorded_last(program, journal, frame('/v1/admin', admin, AT, journals.text_of(scope_of(1000))), b'A7')
    with open(os.path.join(HERE, 'examples', 'first', 'script'), 'rb') as source:
        head, rest = source.read().split(b'\n', 1)
    recorded_last(program, journal, head + b'\n' + rest[:int(head.split()[-1]) + 1], b'E26')
    print(f'limits: a text of {most:,} bytes opens and one of a byte more is refused (J3), a file of {journals.LONGEST_JOURNAL:,} bytes opens and one of a byte more',
          'is refused (J5), and the last command and the last exchange that fit are recorded (A7, E26)')


def main(program, words):
    for word, tried in (('kills', kills), ('bytes', all_bytes), ('full', full), ('limits', limits)):
        if not words or word in words:
            with tempfile.TemporaryDirectory() as folder:
                tried(os.path.abspath(program), folder)


if __name__ == '__main__':
    if len(sys.argv) < 2 or not set(sys.argv[2:]) <= {'kills', 'bytes', 'full', 'limits'}:
        sys.exit(__doc__)
    main(sys.argv[1], sys.argv[2:])
