"""Links by a script of frames: a model of the calls `chains` and `admits` of crates/service_runs, written from docs/FORMATS.md alone.

usage: python3 tools/link_lines.py --check                                       compares it with their cases in crates/service_runs
       python3 tools/link_lines.py chains < FRAMES                               prints the line of a case, and then its answer
       python3 tools/link_lines.py admits PERMISSION RESOURCE MOMENT < FRAMES    the same
"""
import sys

from case_line import escaped, unescaped
from cel_types import read
from model import Service

CONFIG = {'issuer': 'https://sts.example', 'key': 'U1NTU1NTU1NTU1NTU1NTU1NTU1NTU1NTU1NTU1NTU1M', 'admin': 'admin-secret-000001',
          'gate': 'gate-secret-0000001'}


def frames_of(data):
    """The frames of a script that is whole: each a path, a bearer, a moment and a body."""
    while data:
        head, _, rest = data.partition(b'\n')
        path, bearer, at, length = head.decode().split(' ')
        yield path, bearer, int(at), rest[:int(length)]
        data = rest[int(length) + 1:]


def service_after(frames):
    service = Service(CONFIG)
    for frame in frames_of(frames):
        service.reply(*frame)
    return service


def chains(frames):
    """The numbers of the links that each link goes back to, through parents and subjects."""
    told, numbers = '', {}
    for link, _ in service_after(frames).issued.values():
        parent = getattr(link, 'parent', None)
        numbers[link] = ([] if parent is None else numbers[parent]) + [len(numbers)]
        told += str(numbers[link])
    return told


def admits(permission, resource, at, frames):
    """Whether each link admits the permission on the resource at the moment."""
    service = service_after(frames)
    return ''.join('yes ' if service.admits(link, permission.decode(), resource.decode(), int(at)) else 'no '
                   for link, _ in service.issued.values())


CALLS = {'chains': chains, 'admits': admits}


def check():
    count = 0
    for line, told in zip(read('crates', 'service_runs', 'stdin').split('\n'), read('crates', 'service_runs', 'stdout').split('\n'), strict=True):
        call, *inputs = line.split('\t')
        if call in CALLS:
            count += 1
            said = CALLS[call](*map(unescaped, inputs))
            if said != told:
                sys.exit(f'{line[:200]}: {told} stands, and the model says {said}')
    print(count, 'lines agree')


def main(words):
    inputs = [word.encode() for word in words[1:]] + [sys.stdin.buffer.read()]
    print('\t'.join(words[:1] + [escaped(one) for one in inputs]))
    print(CALLS[words[0]](*inputs))


if __name__ == '__main__':
    sys.setrecursionlimit(10000)
    if sys.argv[1:] == ['--check']:
        check()
    elif {'chains': 2, 'admits': 5}.get(sys.argv[1] if sys.argv[1:] else '') == len(sys.argv):
        main(sys.argv[1:])
    else:
        sys.exit(__doc__)
