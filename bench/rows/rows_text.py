"""The worked scripts read, and acts, answers and frames as transcripts and trails print them."""
import re
from antt import Con, Rec, NONE, some, deref

NUMBER = re.compile(r'-?(0|[1-9][0-9]*)?(\.[0-9]*[1-9])?$')


def is_number(text):
    """A canonical number of at most 18 digits."""
    if text == '0':
        return True
    found = NUMBER.match(text)
    if not found or text in ('', '-', '-0') or (found.group(1) == '0'):
        return False
    return (found.group(1) or found.group(2)) is not None and len(re.sub(r'\D', '', text)) <= 18


def decimal_of(text):
    negative, body = text.startswith('-'), text.lstrip('-')
    if body == '0':
        return Rec({'digits': 0, 'exponent': 0, 'negative': False})
    whole, _, fraction = body.partition('.')
    digits = whole + fraction
    exponent = len(whole) if whole else -(len(fraction) - len(fraction.lstrip('0')))
    return Rec({'digits': int(digits.lstrip('0').rstrip('0')), 'exponent': exponent, 'negative': negative})


def sub_of(text):
    """A subscript from its bytes as text."""
    return Con('Num', (decimal_of(text),)) if is_number(text) else Con('Text', (tuple(text.encode('latin1')),))


def sub_key(sub):
    """The bytes of a subscript in a key."""
    if sub.n == 'Text':
        out = [0x40]
        for byte in sub.a[0]:
            out += [0, 0xFF] if byte == 0 else [byte]
        return tuple(out + [0, 1])
    number = sub.a[0].f
    if number['digits'] == 0:
        return (0x20,)
    digits = [int(c) for c in str(number['digits'])]
    if number['negative']:
        return (0x10, 0x40 - number['exponent']) + tuple(0x0A - d for d in digits) + (0x0B,)
    return (0x30, 0x40 + number['exponent']) + tuple(d + 1 for d in digits) + (0,)


def sub_at(key, i):
    """The subscript whose bytes begin at a place of a key, and where they end."""
    tag = key[i]
    if tag == 0x20:
        return Con('Num', (Rec({'digits': 0, 'exponent': 0, 'negative': False}),)), i + 1
    if tag == 0x40:
        out, i = [], i + 1
        while True:
            if key[i] == 0 and key[i + 1] == 1:
                return Con('Text', (tuple(out),)), i + 2
            out.append(key[i])
            i += 2 if key[i] == 0 else 1
    exponent, i, digits = key[i + 1], i + 2, ''
    end = 0x0B if tag == 0x10 else 0
    while key[i] != end:
        digits += str(0x0A - key[i] if tag == 0x10 else key[i] - 1)
        i += 1
    exponent = 0x40 - exponent if tag == 0x10 else exponent - 0x40
    return Con('Num', (Rec({'digits': int(digits), 'exponent': exponent, 'negative': tag == 0x10}),)), i + 1


def quoted(bytes_):
    return '"' + ''.join('""' if b == 0x22 else '\\\\' if b == 0x5C else chr(b) if 0x20 <= b <= 0x7E else '\\%02x' % b for b in bytes_) + '"'


def sub_text(sub):
    sub = deref(sub)
    if sub.n == 'Text':
        return quoted(sub.a[0])
    number = sub.a[0].f
    if number['digits'] == 0:
        return '0'
    digits, exponent = str(number['digits']), number['exponent']
    if exponent <= 0:
        text = '.' + '0' * -exponent + digits
    elif exponent >= len(digits):
        text = digits + '0' * (exponent - len(digits))
    else:
        text = digits[:exponent] + '.' + digits[exponent:]
    return ('-' if number['negative'] else '') + text


def value_text(value):
    text = ''.join(map(chr, value))
    return text if is_number(text) else quoted(value)


def node_text(key, more=()):
    name, i, subs = key[:key.index(0)], key.index(0) + 1, []
    while i < len(key):
        sub, i = sub_at(key, i)
        subs.append(sub_text(sub))
    subs += list(more)
    return '^' + ''.join(map(chr, name)) + ('(%s)' % ','.join(subs) if subs else '')


# ---- reading a script

def read_quoted(text, i):
    out, i = '', i + 1
    while True:
        if text[i] == '"' and text[i + 1:i + 2] == '"':
            out, i = out + '"', i + 2
        elif text[i] == '"':
            return out, i + 1
        elif text[i] == '\\' and text[i + 1] == '\\':
            out, i = out + '\\', i + 2
        elif text[i] == '\\':
            out, i = out + chr(int(text[i + 1:i + 3], 16)), i + 3
        else:
            out, i = out + text[i], i + 1


def read_plain(text, i):
    if text[i] == '"':
        return read_quoted(text, i)
    found = re.compile(r'[0-9.\-]+').match(text, i)
    return found.group(0), found.end()


def read_node(text):
    """A node's name, its subscripts as texts, and what stands behind it."""
    found = re.match(r'\^([A-Za-z][A-Za-z0-9]*)', text)
    name, i, subs = found.group(1), found.end(), []
    if text[i:i + 1] == '(':
        i += 1
        while True:
            sub, i = read_plain(text, i)
            subs.append(sub)
            i += 1
            if text[i - 1] == ')':
                break
    return name, subs, text[i:].strip()


class Script:
    def __init__(self, text):
        self.servers, self.apps, self.jobs, self.job_apps, self.globals = [], [], [], [], {}
        self.times = {'retry': 5, 'trouble': 60, 'recover': 1200, 'round': 60}
        self.lines = []
        for number, line in enumerate(text.split('\n'), 1):
            line = line.strip(' \r')
            if not line or line.startswith('#'):
                continue
            words = line.split()
            if words[0] == 'data':
                self.servers.append(words[1])
            elif words[0] == 'app':
                self.apps.append(words[1])
            elif words[0] == 'job':
                self.jobs.append(words[1])
                self.job_apps.append(self.apps.index(words[2]))
            elif words[0] == 'global':
                self.globals[words[1][1:]] = self.servers.index(words[2])
            elif words[0] == 'time':
                self.times[words[1]] = int(words[2])
            elif words[0].endswith(':'):
                self.lines.append((number, 'job', self.jobs.index(words[0][:-1]), self.command(line.split(':', 1)[1].strip())))
            else:
                self.lines.append((number, words[0], words[1:], None))

    def site(self, name, subs):
        subs = tuple(map(sub_of, subs))
        key = tuple(name.encode()) + (0,) + tuple(b for s in subs for b in sub_key(s))
        return Rec({'server': self.globals[name], 'node': Rec({'name': tuple(name.encode()), 'subs': subs}), 'key': key})

    def command(self, text):
        word, _, rest = text.partition(' ')
        rest = rest.strip()
        if word == 'tstart':
            return Con('Start')
        if word == 'tcommit':
            return Con('Commit', (rest == 'sync',))
        if word == 'trollback':
            return Con('Rollback')
        if word == 'sync':
            return Con('Sync', (self.servers.index(rest),))
        name, subs, behind = read_node(rest)
        if word == 'next':
            return Con('Next', (self.site(name, subs[:-1]), some(sub_of(subs[-1])) if subs[-1] else NONE))
        at, options = self.site(name, subs), behind.split()
        if word == 'set':
            value = read_plain(behind, 0)[0]
            return Con('Set', (at, tuple(value.encode('latin1'))))
        if word == 'incr':
            return Con('Incr', (at, int(behind)))
        mode = Con('Shared' if 'shared' in options else 'Exclusive')
        if word == 'lock':
            return Con('Lock', (at, mode, some(int(options[-1])) if 'wait' in options else NONE))
        if word == 'unlock':
            return Con('Unlock', (at, mode, 'now' in options))
        return Con({'kill': 'Kill', 'get': 'Get', 'data': 'Shape'}[word], (at,))


# ---- printing

def op_text(op):
    if op.n == 'Set':
        return 'set %s %s' % (node_text(op.a[0]), value_text(op.a[1]))
    if op.n == 'Kill':
        return 'kill %s' % node_text(op.a[0])
    return 'add %s %d' % (node_text(op.a[0]), op.a[1])


def entry_text(e):
    if e.n == 'Update':
        return 'update %d %d %d %d %s' % (*e.a[:4], op_text(e.a[4]))
    return ' '.join([{'Opened': 'open', 'Closed': 'close'}.get(e.n, e.n.lower())] + [str(x) for x in e.a])


def item_text(i):
    return op_text(i.a[0]) if i.n == 'Op' else '%s %d' % (i.n.lower(), i.a[0])


def question_text(q):
    if q.n == 'Get':
        v = deref(q.a[1])
        return 'get %s %s' % (node_text(q.a[0]), 'none' if v.n == 'None' else value_text(v.a[0]))
    if q.n == 'Shape':
        return 'data %s %d' % (node_text(q.a[0]), q.a[1])
    sub, found = deref(q.a[1]), deref(q.a[2])
    return 'next %s %s' % (node_text(q.a[0], [found_text(sub)]), found_text(found))


def found_text(found):
    found = deref(found)
    return '""' if found.n == 'None' else sub_text(found.a[0])


def reason_text(r):
    return r.n.lower()


def refusal_text(r, servers):
    r = deref(r)
    if r.n == 'Network':
        return 'network %s %s %s' % (servers[r.a[0]], r.a[1].n, reason_text(deref(r.a[2])))
    return r.n.lower() + (' @%d' % r.a[0] if r.a else '')


def plain_args(act):
    return ' '.join(str(x) for x in act.a)


def act_text(a):
    """The lines of an act, without the last LF."""
    n, x = a.n, a.a
    if n == 'Opened':
        return '\n'.join(['opened %d %d' % (x[0], len(x[1]))] + ['entry ' + entry_text(e) for e in x[1]])
    if n == 'Enter':
        return 'enter %d %s' % (x[0], entry_text(x[1]))
    if n == 'Shut':
        return 'shut %d %d %s' % (x[0], x[1], ' '.join([x[2].n.lower()] + [str(t) for t in x[2].a]))
    if n == 'Issue':
        return 'issue %d %d %d %d %s' % (*x[:4], item_text(x[4]))
    if n == 'Read':
        return 'read %d %d %d %d %s %s' % (*x[:4], x[4].n.lower(), question_text(x[5]))
    if n == 'Grant':
        return 'grant %d %d %d %s %s %d' % (*x[:3], x[3].n.lower(), node_text(x[4]), x[5])
    if n in ('GiveUp', 'Quit', 'Free'):
        return '%s %d %d %d %s %s' % (n.lower(), *x[:3], x[3].n.lower(), node_text(x[4]))
    if n == 'Refused':
        return 'refused %d %d %s' % (x[0], x[1], refusal_text(x[2], range(16)))
    if n == 'Broke':
        return 'broke %d %d %s %d' % (x[0], x[1], x[2].n.lower(), x[3])
    if n == 'Lose':
        return 'lose %d %d %s' % (x[0], x[1], ' '.join([x[2].n.lower()] + [str(t) for t in x[2].a]))
    return (n.lower() + ' ' + plain_args(a)).strip()


def places_text(places, servers, mark):
    return ''.join(' %s%s%d' % (servers[p.f['server']], mark, p.f['number']) for p in places)


def answer_text(a, servers):
    n, x = a.n, [deref(v) for v in a.a]
    if n == 'Queued':
        return 'queued' + places_text(x[0], servers, ':')
    if n in ('Committed', 'RolledBack'):
        return n.lower() + places_text(x[0], servers, '@')
    if n == 'Value':
        return 'value %s @%d %s' % ('none' if x[0].n == 'None' else value_text(x[0].a[0]), x[1], x[2].n.lower())
    if n == 'Shape':
        return 'data %d @%d %s' % (x[0], x[1], x[2].n.lower())
    if n == 'Next':
        return 'next %s @%d %s' % (found_text(x[0]), x[1], x[2].n.lower())
    if n == 'Counted':
        return 'counted %d @%d' % (x[0], x[1])
    if n == 'Granted':
        return 'granted @%d' % x[0]
    if n == 'Waiting':
        return 'waiting ' + x[0].n.lower()
    if n == 'Refused':
        return 'refused ' + refusal_text(x[0], servers)
    return n.lower()


def key_text(key):
    return node_text(key) if 0 in key else ''.join('%02x' % b for b in key)


def bound_text(bytes_):
    """A bound of a span, which need not be a key."""
    try:
        return node_text(bytes_)
    except (ValueError, IndexError, KeyError):
        return '%s' % (''.join('%02x' % b for b in bytes_) or "''")


def run_text(run):
    f = run.f
    return '(%s to %s: %s)' % (bound_text(f['span'].f['lo']), bound_text(f['span'].f['hi']),
                               ', '.join('%s = %s' % (node_text(p.f['key']), value_text(p.f['value'])) for p in f['pairs']) or 'empty')


def message_text(m, block_run=None):
    n, x = m.n, [deref(v) for v in m.a]
    def part(v):
        if isinstance(v, Rec):
            if set(v.f) == {'n', 'w', 's'}:
                return 'n=%d w=%d s=%d' % (v.f['n'], v.f['w'], v.f['s'])
            return repr(v)
        if isinstance(v, Con):
            return op_text(v) if v.n in ('Set', 'Kill', 'Add') else v.n.lower()
        if isinstance(v, tuple):
            return bound_text(v)
        if isinstance(v, bool):
            return 'wanted' if v else 'unwanted'
        return str(v)
    names = {'Hello': ('app', 'dial'), 'Recover': ('app', 'session', 'epoch', 'taken', 'dial'), 'Update': ('w', 'job', 'txn', ''),
             'Add': ('w', 'job', '', 'amount'), 'Fetch': ('',), 'Ask': ('ticket', 'job', '', ''), 'Unlock': ('job', '', ''), 'Cancel': ('ticket',),
             'Commit': ('w', 'job', 'txn', ''), 'Rollback': ('w', 'job', 'txn'), 'Sync': ('ticket',), 'Claim': ('job', '', 'count', 'at', ''),
             'Welcome': ('session', 'epoch', 'kept', '', 'taken'), 'Reset': ('session', 'at'), 'Grant': ('', 'ticket', 'at'),
             'Answer': ('', '', 'job', 'number', 'at', 'sum'), 'Drop': ('', 'from', 'to')}
    if n == 'Block':
        return 'Block %s %s' % (part(x[0]), run_text(block_run(x[1])))
    return ' '.join([n] + [(w + '=' if w else '') + part(v) for w, v in zip(names.get(n, ('',) * len(x)), x)])
