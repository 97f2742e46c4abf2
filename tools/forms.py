"""The forms of names and of JSON texts that the models share, written from docs/FORMATS.md."""
import json
import re

POOL_PATH = r'iam\.googleapis\.com/projects/(?P<project>[1-9][0-9]{0,18})/locations/global/workloadIdentityPools/(?P<pool>[a-z0-9-]{4,32})'
ACCOUNT = r'[a-z0-9-]{1,63}@[a-z0-9-]{1,63}\.iam\.gserviceaccount\.com'
FORMS = {
    'project': r'[1-9][0-9]{0,18}',
    'pool': r'[a-z0-9-]{4,32}',
    'pool name': r'[1-9][0-9]{0,18}/[a-z0-9-]{4,32}',
    'account': ACCOUNT,
    'permission': r'(?=.{1,128}$)[A-Za-z0-9]+\.[A-Za-z0-9]+\.[A-Za-z0-9]+',
    'role': r'roles/[A-Za-z0-9_.]{1,64}',
    'scope': r'[!#-\[\]-~]{1,128}',
    'scopes': r'[!#-\[\]-~]{1,128}( [!#-\[\]-~]{1,128}){0,15}',
    'attribute': r'[a-z0-9_]{1,100}',
    'mapping key': r'google\.subject|google\.groups|attribute\.[a-z0-9_]{1,100}',
    'resource': r'(?=.{1,1024}$)//[a-z0-9.-]+(/[!#-.0-\[\]-~]+)*',
    'member': rf'principal://{POOL_PATH}/subject/(?P<subject>.+)|principalSet://{POOL_PATH.replace("?P<", "?P<set")}/'
              rf'(\*|group/(?P<group>.+)|attribute\.(?P<name>[a-z0-9_]{{1,100}})/(?P<value>.+))|serviceAccount:(?P<account>{ACCOUNT})',
}


class Fault(Exception):
    """A rule that fails: its code, and the detail behind it."""


def has_form(value, form):
    return isinstance(value, str) and re.fullmatch(FORMS[form], value, re.DOTALL) is not None


def covers(upper, lower):
    """Whether a resource is another or stands above it."""
    return lower == upper or lower.startswith(upper + '/')


def read_member(text):
    """The parts of a member of an allow policy, or none."""
    found = isinstance(text, str) and re.fullmatch(FORMS['member'], text, re.DOTALL)
    if not found:
        return None
    parts = found.groupdict()
    for part, limit in (('subject', 127), ('group', 256), ('value', 256)):
        if parts[part] is not None and len(parts[part].encode()) > limit:
            return None
    return parts


class Broken(float):
    """A JSON number that is no whole number of 64 bits."""


def whole(text):
    return fraction(text) if text == '-0' or not -2 ** 63 <= int(text) < 2 ** 64 else int(text)


def fraction(text):
    number = Broken(text)
    if number in (float('inf'), float('-inf')):
        raise ValueError(text)
    return number


def depth_of(value):
    if isinstance(value, (dict, list)):
        return 1 + max([depth_of(part) for part in (value.values() if isinstance(value, dict) else value)], default=0)
    return 0


def no_constant(text):
    raise ValueError(text)


def read_json(data):
    """The value of a JSON text in UTF-8, at most 127 deep; else ValueError. The last of a repeated member counts."""
    text = data.decode()
    value = json.loads(text, parse_int=whole, parse_float=fraction, parse_constant=no_constant)
    json.dumps(value, ensure_ascii=False, default=str).encode()
    if depth_of(value) > 127:
        raise ValueError('too deep')
    return value


def read_object(data, code):
    try:
        value = read_json(data)
    except (ValueError, RecursionError):
        raise Fault(code) from None
    if not isinstance(value, dict):
        raise Fault(code)
    return value
