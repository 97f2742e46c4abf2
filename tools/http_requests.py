"""Random, cut and mutated HTTP requests to the real program, with a fixed seed, and what it answers beside a model apart from it.

usage: python3 tools/http_requests.py PROGRAM [statuses] [stdio] [listen]

PROGRAM is a built `sts`. Without a further word all three are tried:
statuses   runs that can't begin, and a connection that can't be written to: the status that docs/FORMATS.md gives
stdio      ten thousand requests, some on a connection, a fifth of them mutated and the last one of each third connection cut
listen     300 connections over loopback with such requests, whole, in pieces, one by one and broken off; and one that falls silent
Each reply has the bytes that tools/http_model.py (H1 to H11) and tools/model.py (all else) give, and at the end so has the journal.
It ends at the first thing that is wrong, with status 1. Python's standard library is enough.
"""
import json
import os
import random
import re
import socket
import struct
import subprocess
import sys
import tempfile
import time

import http_model
import journals
import model
from http_mutations import Requests
from journal_faults import fail, read, run, write
from signing import compact, decoded

HERE = os.path.dirname(os.path.dirname(os.path.abspath(__file__)))
CONFIG = os.path.join(HERE, 'examples', 'first', 'config.json')
WORDS = ('statuses', 'stdio', 'listen')
REQUESTS, CONNECTIONS, A_JOURNAL = 10_000, 300, 60


def config():
    with open(CONFIG) as source:
        return json.load(source)


# Replies.

def read_reply(data):
    """The status, whether the connection ends behind it and the body of the reply at the front of some bytes, and the bytes behind it."""
    head, between, rest = data.partition(b'\r\n\r\n')
    lines = head.decode('ascii', 'replace').split('\r\n')
    first = re.fullmatch('HTTP/1\\.1 ([0-9]{3}) (OK|Refused)', lines[0])
    length = re.fullmatch('Content-Length: (0|[1-9][0-9]*)', lines[2]) if len(lines) > 2 else None
    if not between or not first or not length or len(rest) < int(length[1]):
        fail('no reply stands at the front of', data[:300])
    status, closes = int(first[1]), lines[-1] == 'Connection: close'
    wanted = ['Content-Type: application/json', lines[2], 'Cache-Control: no-store', 'Pragma: no-cache']
    wanted += ['WWW-Authenticate: Bearer'] * (status == 401) + ['Connection: close'] * closes
    if lines[1:] != wanted or (first[2] == 'OK') != (status == 200):
        fail('the fields of a reply', lines)
    return status, closes, rest[:int(length[1])], rest[int(length[1]):]


def moment_of(body, otherwise):
    """The moment at which a reply's token was issued, or another one where the reply has none."""
    found = re.search(rb'"access_?[tT]oken":"[^".]*\.([^".]*)\.', body)
    return json.loads(decoded(found[1].decode()))['iat'] if found else otherwise


class Trial:
    """A model of a service over a journal of its own, and what was seen of it."""

    def __init__(self):
        self.service, self.replies, self.either, self.seen = model.Service(config()), 0, 0, {}

    def is_answer(self, one, status, closes, body):
        """Whether a reply is an answer, where the model's service takes the request if it is."""
        if one.close != closes:
            return False
        if one.rule is not None:
            number, word = http_model.RULES[one.rule]
            return (status, body) == (number, compact({'error': word, 'error_description': f'H{one.rule}'}).encode())
        now = int(time.time())
        at = moment_of(body, now)
        wanted, value = self.service.reply(one.head.target.decode('latin-1'), http_model.bearer_of(one.head), at, one.body)
        return (status, body) == (wanted, compact(value).encode()) and abs(at - now) <= 60

    def takes(self, data, written):
        """Compares what was written with what is to be answered to some bytes, behind which the input ends or waits."""
        while True:
            right = http_model.answers(data)
            if written == b'' and not right:
                return
            if not right or written == b'':
                fail('behind', data[:2000], 'the program wrote', written[:2000], 'and may answer', [(one.rule, one.close) for one in right])
            status, closes, body, written = read_reply(written)
            found = next((one for one in right if self.is_answer(one, status, closes, body)), None)
            if found is None:
                fail('to', data[:3000], 'it answers', status, closes, body, 'and may answer', [(one.rule, one.close) for one in right])
            self.count(found, right, status)
            if found.close:
                if written != b'':
                    fail('behind the end of a connection', written[:2000])
                return
            data = data[found.size:]

    def count(self, found, right, status):
        self.replies += 1
        name = f'H{found.rule}' if found.rule else str(status)
        self.seen[name] = self.seen.get(name, 0) + 1
        if len(right) > 1:
            self.either += 1

    def is_kept(self, journal):
        """Refuses a journal that has other entries than the model's service."""
        texts, bad = journals.read(read(journal))
        if bad is not None or texts != self.service.texts:
            fail('the journal has', len(texts), 'entries, and should have', len(self.service.texts))


def told(counts):
    return ', '.join(f'{name} {counts[name]}' for name in sorted(counts, key=lambda one: (len(one), one)))


# The parts that are tried.

def statuses(program, folder):
    journal, bad, other = (os.path.join(folder, name) for name in ('journal', 'bad', 'other'))
    asked = Requests(random.Random(1), config()).introspection()
    write(journal, journals.file_of([]))
    write(bad, b'{}')
    write(other, b'no journal')
    with socket.socket() as taken:
        taken.bind(('127.0.0.1', 0))
        taken.listen()
        port = str(taken.getsockname()[1])
        tried = [(0, 'stdio', CONFIG, journal), (1, 'stdio', bad, journal), (2,), (2, 'stdio'), (2, 'listen', CONFIG, journal, '0', '1'),
                 (2, 'listen', CONFIG, journal, '65536', '1'), (2, 'listen', CONFIG, journal, '1', '0'), (2, 'listen', CONFIG, journal, '1', '1000001'),
                 (2, 'listen', CONFIG, journal, '8080'), (3, 'stdio', os.path.join(folder, 'none'), journal), (3, 'listen', CONFIG, journal, port, '1'),
                 (5, 'stdio', CONFIG, os.path.join(folder, 'none')), (6, 'stdio', CONFIG, other), (6, 'init', other),
                 (6, 'listen', CONFIG, other, str(free_port()), '1')]
        for status, *words in tried:
            was, written = run(program, *words, data=asked)
            if was != status or (status and written):
                fail(words, 'ends with status', was, 'and', written, 'and should with', status)
    ends, closed = os.pipe()
    os.close(ends)
    with open(closed, 'wb') as output:
        done = subprocess.run([program, 'stdio', CONFIG, journal], input=asked, stdout=output, timeout=120)
    if done.returncode != 4:
        fail('an output that is closed gives status', done.returncode)
    print(f'statuses: {len(tried) + 1} runs, each with its own')


def stdio(program, folder):
    chance, journal, total, streams, seen, either, entries = random.Random(2), os.path.join(folder, 'journal'), 0, 0, {}, 0, 0
    while total < REQUESTS:
        trial, requests = Trial(), Requests(chance, config())
        write(journal, journals.file_of([]))
        for number in range(A_JOURNAL):
            data = requests.setup() if number == 0 else requests.stream(number % 3 == 0)
            status, written = run(program, 'stdio', CONFIG, journal, data=data)
            if status != 0:
                fail('status', status, 'behind', data[:3000])
            trial.takes(data, written)
            requests.learn(trial.service)
        trial.is_kept(journal)
        total, streams, entries, either = total + trial.replies, streams + A_JOURNAL, entries + len(trial.service.texts), either + trial.either
        for name, count in trial.seen.items():
            seen[name] = seen.get(name, 0) + count
    print(f'stdio: {total} replies on {streams} connections, {entries} entries in journals, as the models say: {told(seen)}')
    print(f'       {either} of them had a choice between H1 and H2')


def free_port():
    with socket.socket() as one:
        one.bind(('127.0.0.1', 0))
        return one.getsockname()[1]


def connected(server, port, seconds=900):
    """A connection to a server that may not be up yet."""
    end = time.monotonic() + seconds
    while True:
        try:
            return socket.create_connection(('127.0.0.1', port), timeout=60)
        except ConnectionRefusedError:
            if server.poll() is not None or time.monotonic() > end:
                fail('the server is not up, status', server.poll())
            time.sleep(0.05)


def rest_of(one):
    """What still comes of a connection."""
    pieces = []
    while piece := one.recv(65536):
        pieces.append(piece)
    return b''.join(pieces)


def short_stream(requests, is_cut):
    """One that is read to its end even where a request in it is refused: then the service reads at most 65,536 bytes more."""
    while True:
        data = requests.stream(is_cut)
        if len(data) <= 60_000:
            return data


def pieces_of(chance, data):
    while data:
        size = chance.choice([1, 2, 5, 50, 500, 5000, len(data)])
        yield data[:size]
        data = data[size:]


def sent_whole(trial, one, data, chance):
    """All at once or in pieces, and then the end."""
    for piece in [data] if chance.random() < 0.5 else pieces_of(chance, data):
        try:
            one.sendall(piece)
        except (BrokenPipeError, ConnectionResetError):
            break
    try:
        one.shutdown(socket.SHUT_WR)
    except OSError:
        pass
    trial.takes(data, rest_of(one))


def reply_from(one):
    """One reply of a connection that goes on."""
    got = b''
    while b'\r\n\r\n' not in got:
        piece = one.recv(65536)
        if not piece:
            fail('a connection ends in front of a reply', got)
        got += piece
    size = int(re.search(rb'Content-Length: (\d+)', got)[1]) + got.index(b'\r\n\r\n') + 4
    while len(got) < size:
        piece = one.recv(65536)
        if not piece:
            fail('a connection ends inside a reply', got)
        got += piece
    return got


def one_by_one(trial, one, requests):
    """Requests that are answered before the next is sent."""
    for _ in range(5):
        data = requests.good()
        one.sendall(data)
        trial.takes(data, reply_from(one))
    one.shutdown(socket.SHUT_WR)
    trial.takes(b'', rest_of(one))


def broken_off(one, requests):
    """A request that isn't whole, and the connection reset behind it."""
    one.sendall(requests.good()[:-3])
    one.setsockopt(socket.SOL_SOCKET, socket.SO_LINGER, struct.pack('ii', 1, 0))


def listen(program, folder):
    chance, journal, port = random.Random(3), os.path.join(folder, 'journal'), free_port()
    trial, requests = Trial(), Requests(chance, config())
    write(journal, journals.file_of([]))
    server = subprocess.Popen([program, 'listen', CONFIG, journal, str(port), str(CONNECTIONS + 2)], stdout=subprocess.DEVNULL)
    try:
        for number in range(CONNECTIONS):
            with connected(server, port) as one:
                if number % 10 == 9:
                    broken_off(one, requests)
                elif number % 10 == 4:
                    one_by_one(trial, one, requests)
                else:
                    sent_whole(trial, one, requests.setup() if number == 0 else short_stream(requests, number % 3 == 0), chance)
            requests.learn(trial.service)
        seconds = silent(trial, server, port, requests)
        status = server.wait(60)
    finally:
        server.kill()
    if status != 0:
        fail('behind its connections listen ends with status', status)
    trial.is_kept(journal)
    print(f'listen: {trial.replies} replies on {CONNECTIONS + 2} connections, {len(trial.service.texts)} entries, as the models say: {told(trial.seen)}')
    print(f'        one that was silent was ended behind {seconds:.0f} s, and the next one answered')


def silent(trial, server, port, requests):
    """How long a connection lasts whose request doesn't go on, while another waits that is answered behind it."""
    with connected(server, port) as one, connected(server, port) as other:
        one.sendall(requests.good()[:20])
        start, data = time.monotonic(), requests.good()
        other.sendall(data)
        other.shutdown(socket.SHUT_WR)
        trial.takes(data, rest_of(other))
        seconds = time.monotonic() - start
        if not 29 <= seconds <= 33:
            fail('a silent connection lasts', seconds, 'seconds')
        return seconds


def main(program, words):
    for word, tried in zip(WORDS, (statuses, stdio, listen)):
        if not words or word in words:
            with tempfile.TemporaryDirectory() as folder:
                tried(os.path.abspath(program), folder)


if __name__ == '__main__':
    if len(sys.argv) < 2 or not set(sys.argv[2:]) <= set(WORDS):
        sys.exit(__doc__)
    main(sys.argv[1], sys.argv[2:])
