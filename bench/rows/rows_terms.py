"""Values as terms of the definitions, and what a move changed."""
from antt import Con, Rec, deref

SIGNED = {('Add', 4): 3, ('Add', 2): 1, ('Answer', 6): 5, ('AnswerOf', 6): 5, ('Counted', 5): 4, ('Counted', 2): 0, ('Incr', 2): 1}
LETTERS = set(range(0x20, 0x7F))


def signed(n):
    return 'pos %d' % n if n >= 0 else 'negsuc %d' % (-n - 1)


def closed(text):
    return '(%s)' % text if ' ' in text and not text.startswith('[') and not text.startswith('record') and not text.startswith('(') else text


def term(v, inner=False, field=''):
    v = deref(v)
    if isinstance(v, bool):
        return 'true' if v else 'false'
    if isinstance(v, int):
        text = signed(v) if field in ('sum', 'exponent') else str(v)
        return '(%s)' % text if inner and ' ' in text else text
    if isinstance(v, Con):
        if not v.a:
            return v.n
        at = SIGNED.get((v.n, len(v.a)))
        text = v.n + ' ' + ' '.join('(%s)' % signed(deref(x)) if i == at else term(x, True) for i, x in enumerate(v.a))
        return '(%s)' % text if inner else text
    if isinstance(v, Rec):
        text = 'record { %s }' % '; '.join('%s = %s' % (k, term(x, False, k)) for k, x in v.f.items())
        return '(%s)' % text if inner else text
    if isinstance(v, tuple):
        if len(v) >= 16:
            first = max(set(map(repr, v)), key=list(map(repr, v)).count)
            common = next(x for x in v if repr(x) == first)
            text = 'replicate %d %s' % (len(v), term(common, True))
            for i, x in enumerate(v):
                if repr(x) != first:
                    text = 'set (%s) %d %s' % (text, i, term(x, True))
            if sum(repr(x) != first for x in v) < 8:
                return '(%s)' % text if inner else text
        if not v:
            return '[]'
        text = ' ∷ '.join(term(x, isinstance(deref(x), (Con, Rec, tuple)) and not (isinstance(deref(x), Con) and not deref(x).a)) for x in v) + ' ∷ []'
        return '(%s)' % text if inner else text
    return repr(v)


def same(a, b):
    a, b = deref(a), deref(b)
    return a is b or term(a) == term(b)


def steady(a, b):
    """Two members of lists of which the later is the earlier one, changed."""
    a, b = deref(a), deref(b)
    if same(a, b) or (isinstance(a, tuple) and isinstance(b, tuple)):
        return True
    if isinstance(a, Rec) and isinstance(b, Rec):
        return a.f.keys() == b.f.keys()
    return isinstance(a, Con) and isinstance(b, Con) and not isinstance(a, bool) and len(a.a) < 2 and len(b.a) < 2


def changes(old, new, path=''):
    """The fields that a move changed, by their paths."""
    old, new = deref(old), deref(new)
    if same(old, new):
        return []
    if isinstance(old, Rec) and isinstance(new, Rec) and old.f.keys() == new.f.keys():
        out = []
        for k in new.f:
            out += changes(old.f[k], new.f[k], '%s.%s' % (path, k) if path else k)
        return out
    if isinstance(old, Con) and isinstance(new, Con) and (old.n, new.n) == ('Some', 'Some') and isinstance(deref(old.a[0]), Rec):
        return changes(old.a[0], new.a[0], path)
    if isinstance(old, tuple) and isinstance(new, tuple):
        if len(new) > len(old) and all(same(a, b) for a, b in zip(old, new)):
            return ['%s ++ %s' % (path, term(new[len(old):]))]
        if len(new) == len(old) and all(steady(a, b) for a, b in zip(old, new)):
            out = []
            for i, (a, b) in enumerate(zip(old, new)):
                out += changes(a, b, '%s[%d]' % (path, i))
            return out
    return ['%s = %s' % (path, term(new))]
