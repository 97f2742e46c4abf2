"""Requests of a connection, and what they are answered by the rules of docs/FORMATS.md, written out by hand.

usage: python3 tools/connection_lines.py            prints the lines of cases for crates/service_runs, and then their answers
       python3 tools/connection_lines.py --check    compares both with those that stand there
"""
import sys

from case_line import escaped
from cel_types import read

RULES = {1: (400, 'bad_request'), 2: (431, 'head_too_large'), 3: (414, 'target_too_long'), 4: (404, 'not_found'), 5: (405, 'method_not_allowed'),
         6: (501, 'not_implemented'), 7: (411, 'length_required'), 8: (400, 'bad_request'), 9: (413, 'body_too_large'),
         10: (415, 'unsupported_media_type'), 11: (400, 'bad_request')}
FORM, JSON = 'application/x-www-form-urlencoded', 'application/json'
SECRET = 'Authorization: Bearer gate-secret-0000001'
AT = '1700000000'


def response(status, body, close=False):
    lines = [f'HTTP/1.1 {status} {"OK" if status == 200 else "Refused"}', 'Content-Type: application/json', f'Content-Length: {len(body)}',
             'Cache-Control: no-store', 'Pragma: no-cache']
    lines += ['WWW-Authenticate: Bearer'] * (status == 401) + ['Connection: close'] * close
    return '\r\n'.join([*lines, '', body])


def refused(rule):
    status, word = RULES[rule]
    return response(status, f'{{"error":"{word}","error_description":"H{rule}"}}', True)


def inactive(close=False):
    return response(200, '{"active":false}', close)


def stranger(close=False):
    return response(401, '{"error":"invalid_token","error_description":"U1"}', close)


def request(*fields, method='POST', target='/v1/introspect', version='HTTP/1.1', body='token=a', length=None, kind=f'Content-Type: {FORM}', end='\r\n'):
    """A request to introspect, with these fields in front of the two of its body."""
    lines = [f'{method} {target} {version}', *fields, *([kind] if kind else []), *([f'Content-Length: {len(body)}'] if length is None else length)]
    return ''.join(line + end for line in lines) + end + body


ONE, DONE, NO_MOMENT = AT, 'Done', 'ClockFault'
MANY = f'{AT} {AT} {AT}'
good = request(SECRET)
CASES = [
    ('nothing, one request, several at once, and one that the clock has no moment for', [
        (ONE, '', DONE, ''), (ONE, good, DONE, inactive()), (MANY, good * 3, DONE, inactive() * 3), (ONE, good * 2, NO_MOMENT, inactive()),
        ('', good, NO_MOMENT, ''), (ONE, request(), DONE, stranger()), (MANY, request() + good, DONE, stranger() + inactive()),
        (ONE, request(SECRET, end='\n'), DONE, inactive())]),
    ('the bearer: the word in any case, one space, one field, visible ASCII', [
        (ONE, request('authorization: bEARER gate-secret-0000001'), DONE, inactive()),
        (ONE, request('Authorization: Bearer  gate-secret-0000001'), DONE, stranger()), (ONE, request('Authorization: gate-secret-0000001'), DONE, stranger()),
        (ONE, request(SECRET, SECRET), DONE, stranger()), (ONE, request('Authorization: Bearer gate-secret-0000002'), DONE, stranger())]),
    ('what ends a connection: a close, in any case, and version 1.0', [
        (MANY, request(SECRET, 'Connection: close') + good, DONE, inactive(True)), (MANY, request(SECRET, 'connection: CLOSE') + good, DONE, inactive(True)),
        (MANY, request(SECRET, 'Connection: keep-alive') + good, DONE, inactive() * 2),
        (MANY, request(SECRET, version='HTTP/1.0') + good, DONE, inactive(True)),
        (MANY, request(SECRET, 'Connection: keep-alive', version='HTTP/1.0') + good, DONE, inactive(True))]),
    ('H1 and H2: a head that can\'t be completed, that ends too soon, or is too large', [
        (ONE, 'POST', DONE, refused(1)), (ONE, 'POST /v1/introspect HTTP/1.1\r\n', DONE, refused(1)), (ONE, good[:-9], DONE, refused(1)),
        (ONE, 'x y z\r\n\r\n' + good, DONE, refused(1)), (ONE, 'POST /v1/introspect HTTP/2.0\r\n\r\n', DONE, refused(1)),
        (ONE, request(SECRET, 'bad field'), DONE, refused(1)), (ONE, request(SECRET, *['a: b'] * 61), DONE, inactive()),
        (ONE, request(SECRET, *['a: b'] * 62), DONE, refused(2)), (MANY, good + 'x\r\n\r\n', DONE, inactive() + refused(1))]),
    ('H3 to H5: the target\'s length, its route, the method', [
        (ONE, request(target='/' + 'a' * 2047), DONE, refused(4)), (ONE, request(target='/' + 'a' * 2048), DONE, refused(3)),
        (ONE, request(target='/v1/introspect?a=b'), DONE, stranger()), (ONE, request(target='/v1/introspect/'), DONE, refused(4)),
        (ONE, request(method='GET', target='/v1/none'), DONE, refused(4)), (ONE, request(method='GET', length=[]), DONE, refused(5)),
        (ONE, request(method='post'), DONE, refused(5))]),
    ('H6 to H9: how the body\'s length is told', [
        (ONE, request('Transfer-Encoding: chunked'), DONE, refused(6)), (ONE, request('Transfer-Encoding: chunked', length=[]), DONE, refused(6)),
        (ONE, request(length=[], kind=None), DONE, refused(7)), (ONE, request(length=['Content-Length: 7'] * 2), DONE, refused(8)),
        *[(ONE, request(length=[f'Content-Length: {bad}']), DONE, refused(8)) for bad in ('', '+7', '-7', '7 7', '7,7', '0x7', '7.0')],
        (ONE, request(SECRET, length=['Content-Length: 007']), DONE, inactive()), (ONE, request(length=['Content-Length: 65537']), DONE, refused(9)),
        (ONE, request(length=['Content-Length: 99999999999999999999']), DONE, refused(9)),
        (ONE, request(SECRET, body='token=' + 'a' * 65530), DONE, inactive()), (ONE, request(kind=None, length=['Content-Length: 65537']), DONE, refused(9))]),
    ('H10: what the body is said to be', [
        (ONE, request(kind=None), DONE, refused(10)), (ONE, request(kind=f'Content-Type: {JSON}'), DONE, refused(10)),
        (ONE, request(f'Content-Type: {FORM}'), DONE, refused(10)), (ONE, request(kind='Content-Type: '), DONE, refused(10)),
        (ONE, request(SECRET, kind=f'content-type:  {FORM.upper()} ; charset=utf-8'), DONE, inactive()),
        (ONE, request('Content-Encoding: gzip'), DONE, refused(10)), (ONE, request(SECRET, 'Content-Encoding: IDENTITY'), DONE, inactive()),
        (ONE, request(target='/v1/check', body='{}'), DONE, refused(10)),
        (ONE, request(target='/v1/check', body='{}', kind=f'Content-Type: {JSON}'), DONE, stranger())]),
    ('H11: a body that ends too soon; and what stands behind a refusal does not count', [
        (ONE, good[:-1], DONE, refused(11)), (MANY, good + good[:-7], DONE, inactive() + refused(11)),
        (MANY, request(method='GET') + good, DONE, refused(5)), ('', request(method='GET'), DONE, refused(5))]),
]


def lines():
    """Each line of cases with its answer."""
    yield '# connection MOMENTS BYTES: how the run over a connection ends whose clock gives these moments, and its output', None
    for title, cases in CASES:
        yield f'# connection: {title}', None
        for moments, asked, end, answered in cases:
            yield f'connection\t{moments}\t{shorter(asked)}', f'{end} {escaped(answered.encode())}'


def shorter(text):
    """An input with its bytes escaped, long runs of one letter told by their number."""
    told = escaped(text.encode())
    for count in (65530, 2048, 2047):
        told = told.replace('a' * count, f'\\*{count}*a*')
    return told


def check():
    asked, told = ([line for line in read('crates', 'service_runs', name).split('\n')] for name in ('stdin', 'stdout'))
    stand = list(zip(asked, told, strict=True))
    wanted = [(line, answer or line) for line, answer in lines()]
    missing = [pair for pair in wanted if pair not in stand]
    for line, answer in missing:
        print(f'{line}\n  wanted {answer}')
    print(f'{len(wanted) - len(missing)} lines agree, {len(missing)} differ')
    return len(missing) > 0


if __name__ == '__main__':
    if sys.argv[1:] == ['--check']:
        sys.exit(check())
    if sys.argv[1:]:
        sys.exit(__doc__)
    both = list(lines())
    print('\n'.join(line for line, _ in both))
    print('\n'.join(answer or line for line, answer in both))
