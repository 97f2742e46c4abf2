"""Makes the stored run of `sts` from tools/cases.py: its input, and the replies that the model expects.

usage: python3 tools/stored_run.py            writes crates/wif_tool/stdin and stdout
       python3 tools/stored_run.py --check    compares them instead
       python3 tools/stored_run.py --list     prints each case: its number, its reply in short, its path and moment
A case whose reply in short isn't the model's stops it.
"""
import json
import os
import sys

import cases
import model
from signing import frame

CRATE = os.path.join(os.path.dirname(os.path.dirname(os.path.abspath(__file__))), 'crates', 'wif_tool')


def main(word):
    with open(os.path.join(CRATE, 'data', 'config.json')) as source:
        service = model.Service(json.load(source))
    made = {'stdin': b'', 'stdout': b''}
    for number, (want, path, bearer, at, body) in enumerate(cases.CASES):
        body = body if isinstance(body, bytes) else body.encode()
        status, value = service.reply(path, bearer, at, body)
        if model.told(value) != want:
            sys.exit(f'case {number}: {want} is stated, and the model says {model.told(value)}: {path} {body[:200]}')
        made['stdin'] += frame(path, bearer, at, body)
        made['stdout'] += model.reply_bytes(status, value)
        if word == '--list':
            print(number, want, path[:60], at, sep='\t')
    for name, data in made.items():
        file = os.path.join(CRATE, name)
        if word == '--check':
            with open(file, 'rb') as stored:
                if stored.read() != data:
                    sys.exit(f'{name} differs')
        elif word is None:
            with open(file, 'wb') as stored:
                stored.write(data)


if __name__ == '__main__':
    if sys.argv[1:] not in ([], ['--check'], ['--list']):
        sys.exit(__doc__)
    sys.setrecursionlimit(10000)
    main(sys.argv[1] if len(sys.argv) > 1 else None)
