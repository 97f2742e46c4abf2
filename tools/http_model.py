"""Heads of HTTP and the rules on requests, as docs/FORMATS.md has them (H1 to H11), apart from the code.

What FORMATS leaves to HTTP is taken from RFC 9112: a request line with one blank between its parts, names of fields that are tokens with the colon
right behind, values without controls. Where H1 and H2 fail both, either may be told, and both are listed.
Two rules came into FORMATS from the definitions of the code, so that the model is no second opinion on them: which bytes a target may have, and that
`close` isn't looked for among other words of a Connection.
"""
import re

from model import GENERATE

RULES = {1: (400, 'bad_request'), 2: (431, 'head_too_large'), 3: (414, 'target_too_long'), 4: (404, 'not_found'), 5: (405, 'method_not_allowed'),
         6: (501, 'not_implemented'), 7: (411, 'length_required'), 8: (400, 'bad_request'), 9: (413, 'body_too_large'),
         10: (415, 'unsupported_media_type'), 11: (400, 'bad_request')}
LONGEST_HEAD, MOST_FIELDS, LONGEST_TARGET, LONGEST_BODY = 16_384, 64, 2_048, 65_536
FORM, JSON = b'application/x-www-form-urlencoded', b'application/json'
ROUTES = {b'/v1/token': FORM, b'/v1/introspect': FORM, b'/v1/check': JSON, b'/v1/admin': JSON}
TOKEN = rb"[!#$%&'*+.^_`|~0-9A-Za-z-]+"
REQUEST_LINE = re.compile(TOKEN + rb' ([^\x00-\x20\x7f]+) HTTP/1\.[01]')
FIELD = re.compile(rb'(' + TOKEN + rb'):[ \t]*((?:[^\x00-\x08\x0a-\x1f\x7f]*[^\x00-\x20\x7f])?)[ \t]*')


class Head:
    """A whole head: how long it is with the empty lines in front, its three words, and its fields in order with names in small letters."""

    def __init__(self, size, line, fields):
        self.size, self.fields = size, fields
        self.method, self.target, self.version = line.split(b' ')

    def values(self, name):
        return [value for found, value in self.fields if found == name]


def lines_of(data):
    """The lines that end in LF or CRLF, each with the place behind its end; a bare CR stays in its line."""
    at = 0
    while b'\n' in data[at:]:
        end = data.index(b'\n', at)
        yield data[at:end].removesuffix(b'\r'), end + 1
        at = end + 1


def read_head(data):
    """The head at the front of what is left of an input, or none and the rules of which one is told."""
    line, fields = None, []
    for text, end in lines_of(data[:LONGEST_HEAD]):
        if line is None and text == b'':
            continue
        if line is None:
            line = text
            if not REQUEST_LINE.fullmatch(text) or not is_text(text):
                return None, {1}
        elif text == b'':
            return (None, {2}) if len(fields) > MOST_FIELDS else (Head(end, line, fields), set())
        else:
            found = FIELD.fullmatch(text)
            if not found:
                return None, {1, 2} if len(fields) >= MOST_FIELDS else {1}
            fields.append((found[1].lower(), found[2]))
    if len(data) < LONGEST_HEAD:
        return None, {1, 2} if len(fields) > MOST_FIELDS else {1}
    return None, {1, 2} if is_spoilt(data[:LONGEST_HEAD], line) else {2}


def is_text(data):
    """Whether bytes are UTF-8."""
    try:
        return data.decode() is not None
    except UnicodeDecodeError:
        return False


def is_spoilt(data, line):
    """Whether a head is cut inside a line that could not be completed, so that either of H1 and H2 may be told."""
    last = data.rpartition(b'\n')[2]
    fits = TOKEN + rb'( [!-~]*)?' if line is None else TOKEN + rb'(:[^\x00-\x08\x0a-\x1f\x7f]*\r?)?|\r?'
    return re.fullmatch(fits, last) is None


def route_of(target):
    """The media type that the route of a target wants, or none where its path has no route."""
    path = target.partition(b'?')[0]
    if re.fullmatch(re.escape(GENERATE.encode()) + rb'.*:generateAccessToken', path, re.DOTALL):
        return JSON
    return ROUTES.get(path)


def rule_broken(head):
    """The first of H3 to H10 that fails, or none."""
    media, lengths = route_of(head.target), head.values(b'content-length')
    types = head.values(b'content-type')
    codings = head.values(b'content-encoding')
    is_number = len(lengths) == 1 and re.fullmatch(rb'[0-9]+', lengths[0]) is not None
    rules = [(3, len(head.target) <= LONGEST_TARGET), (4, media is not None), (5, head.method == b'POST'), (6, not head.values(b'transfer-encoding')),
             (7, lengths != []), (8, is_number), (9, is_number and int(lengths[0].lstrip(b'0')[:9] or b'0') <= LONGEST_BODY),
             (10, len(types) == 1 and types[0].partition(b';')[0].strip(b' \t').lower() == media and all(one.lower() == b'identity' for one in codings))]
    return next((number for number, holds in rules if not holds), None)


def bearer_of(head):
    """The bearer as the service's model takes it, where `-` is none."""
    given = head.values(b'authorization')
    found = re.fullmatch(rb'bearer ([!-~]+)', given[0], re.IGNORECASE) if len(given) == 1 else None
    return found[1].decode() if found else '-'


def closes(head):
    """Whether the connection ends behind a request that no rule refuses."""
    return head.version == b'HTTP/1.0' or any(value.lower() == b'close' for value in head.values(b'connection'))


class Answer:
    """What may be answered to what stands at the front of an input: a rule that refuses it, or a request that the service answers."""

    def __init__(self, rule=None, head=None, body=None, close=True):
        self.rule, self.head, self.body, self.close = rule, head, body, close
        self.size = None if head is None else head.size + len(body)


def answers(data):
    """Each answer that is right for what is left of an input that ends behind it; none where nothing is to be answered."""
    if data == b'':
        return []
    head, told = read_head(data)
    if head is None:
        return [Answer(rule) for rule in sorted(told)]
    rule = rule_broken(head)
    if rule is not None:
        return [Answer(rule)]
    size = int(head.values(b'content-length')[0])
    body = data[head.size:head.size + size]
    return [Answer(None, head, body, closes(head)) if len(body) == size else Answer(11)]
