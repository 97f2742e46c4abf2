"""Journals: the text of each entry, the bytes of a list of texts, and what a file stands for. Written from docs/FORMATS.md alone."""
from signing import compact

MARKER = b'WIFJ0001'
LONGEST_TEXT, LONGEST_JOURNAL = 262_144, 67_108_864
DEFAULTS = {'pool': {'disabled': False}, 'provider': {'audiences': [], 'disabled': False}, 'account': {'disabled': False}, 'role': {}, 'scope': {}, 'policy': {}}
MEMBERS = {
    'pool': ('project', 'pool', 'disabled'), 'account': ('email', 'disabled'), 'role': ('role', 'permissions'), 'scope': ('scope', 'permissions'),
    'provider': ('project', 'pool', 'provider', 'issuer', 'key', 'audiences', 'mapping', 'condition', 'disabled'), 'policy': ('resource', 'bindings'),
}


def text_of(entry):
    """The text of an object, its members and those of its parts in byte order of their names."""
    return compact(ordered(entry)).encode()


def ordered(value):
    if isinstance(value, dict):
        return {name: ordered(value[name]) for name in sorted(value, key=str.encode)}
    return [ordered(one) for one in value] if isinstance(value, list) else value


def command_text(command):
    """The text of a command: each default is put in, and what isn't asked for is left out."""
    kind = command['kind']
    entry = {'kind': kind, **DEFAULTS[kind], **{name: command[name] for name in MEMBERS[kind] if name in command}}
    if kind == 'policy':
        entry['bindings'] = [binding(one) for one in entry['bindings']]
    return text_of(entry)


def binding(one):
    kept = {name: one[name] for name in ('role', 'members')}
    return {**kept, 'condition': {'expression': one['condition']['expression']}} if 'condition' in one else kept


def record(text):
    return len(text).to_bytes(4, 'big') + text


def file_of(texts):
    """The bytes of a journal: a gate, a length and a text for each entry, and a closed gate."""
    return MARKER + b''.join(b'\1' + record(text) for text in texts) + b'\0'


def read(data):
    """The texts in front of the closed gate or of the first record that isn't whole, and the place and the rule of that one or None."""
    if data[:8] != MARKER:
        return [], (0, 'J1')
    texts, at = [], 8
    while at < len(data) and data[at] == 1:
        size = int.from_bytes(data[at + 1:at + 5], 'big')
        if len(data) < at + 5 or len(data) < at + 5 + size:
            return texts, (at, 'J2')
        if size > LONGEST_TEXT:
            return texts, (at, 'J3')
        texts.append(data[at + 5:at + 5 + size])
        at += 5 + size
    return texts, None if at < len(data) else (at, 'J2')


def places(texts):
    """Where the gate of each text stands."""
    at = 8
    for text in texts:
        yield at
        at += 5 + len(text)
