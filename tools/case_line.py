"""Writes lines for the tables of crates/case_runs: one for each line of standard input, with tabs between the inputs.

usage: python3 tools/case_line.py CALL < INPUTS     the lines of stdin: the call, and its inputs with their bytes escaped
       python3 tools/case_line.py < ANSWERS         the lines of stdout: the bytes escaped
"""
import re
import sys


def escaped(data):
    known = {ord('\n'): '\\n', ord('\t'): '\\t', ord('\\'): '\\\\'}
    return ''.join(known.get(byte) or (chr(byte) if 32 <= byte < 127 else f'\\x{byte:02x}') for byte in data)


def unescaped(text):
    """The bytes that an input stands for."""
    def bytes_of(found):
        if found[2]:
            return bytes([int(found[2], 16)])
        return found[4] * int(found[3]) if found[3] else {b'n': b'\n', b't': b'\t', b'\\': b'\\'}[found[1]]
    return re.sub(rb'\\(n|t|\\|x(..)|\*(\d+)\*([^*\\]*)\*)', bytes_of, text.encode())


def main(words):
    for line in sys.stdin.buffer.read().removesuffix(b'\n').split(b'\n'):
        parts = line.split(b'\t') if words else [line]
        print('\t'.join(words + [escaped(part) for part in parts]))


if __name__ == '__main__':
    if len(sys.argv) > 2 or sys.argv[1:2] == ['--help']:
        sys.exit(__doc__)
    main(sys.argv[1:])
