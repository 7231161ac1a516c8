"""A small evaluator of the definitions in specs/*.antt: functions by cases, records, and relations whose result is determined."""
import os, re, sys
sys.setrecursionlimit(1000000)
ROOT = os.environ.get('ANTT_ROOT', 'crates')

class Rec:
    __slots__ = ('f',)
    def __init__(self, f): self.f = f
    def __repr__(self): return '{%s}' % '; '.join('%s=%r' % kv for kv in self.f.items())
class Con:
    __slots__ = ('n', 'a')
    def __init__(self, n, a=()): self.n, self.a = n, tuple(a)
    def __repr__(self): return self.n if not self.a else '(%s %s)' % (self.n, ' '.join(map(repr, self.a)))
class Var:
    __slots__ = ('v', 'b', 'name')
    def __init__(self, name=''): self.v, self.b, self.name = None, False, name
    def __repr__(self): return '?%s' % self.name if not self.b else repr(self.v)
class Fun:
    __slots__ = ('n', 'call', 'a', 'name')
    def __init__(self, n, call, a=(), name=''): self.n, self.call, self.a, self.name = n, call, a, name
class Prop:
    __slots__ = ('k', 'x')
    def __init__(self, k, *x): self.k, self.x = k, x
NONE = Con('None')
def some(x): return Con('Some', (x,))
def deref(v):
    while isinstance(v, Var):
        if not v.b: return v
        v = v.v
    return v
def eqv(a, b):
    a, b = deref(a), deref(b)
    if isinstance(a, Rec) and isinstance(b, Rec):
        return a.f.keys() == b.f.keys() and all(eqv(a.f[k], b.f[k]) for k in a.f)
    if isinstance(a, Con) and isinstance(b, Con):
        return a.n == b.n and len(a.a) == len(b.a) and all(eqv(x, y) for x, y in zip(a.a, b.a))
    if isinstance(a, tuple) and isinstance(b, tuple):
        return len(a) == len(b) and all(eqv(x, y) for x, y in zip(a, b))
    return a == b
TRAIL = []
def bind(v, x): v.v, v.b = x, True; TRAIL.append(v)
def undo(n):
    while len(TRAIL) > n: v = TRAIL.pop(); v.v, v.b = None, False
def unify(a, b):
    a, b = deref(a), deref(b)
    if a is b: return True
    if isinstance(a, Var): bind(a, b); return True
    if isinstance(b, Var): bind(b, a); return True
    if isinstance(a, Rec) and isinstance(b, Rec): return a.f.keys() == b.f.keys() and all(unify(a.f[k], b.f[k]) for k in a.f)
    if isinstance(a, Con) and isinstance(b, Con): return a.n == b.n and len(a.a) == len(b.a) and all(unify(x, y) for x, y in zip(a.a, b.a))
    if isinstance(a, tuple) and isinstance(b, tuple): return len(a) == len(b) and all(unify(x, y) for x, y in zip(a, b))
    return a == b

TOK = re.compile(r"\s+|(0x[0-9A-Fa-f]+|\d+)|([A-Za-z_◌⊤⊥ℕℤ«][A-Za-z0-9_'ℕℤ»]*(?:\.(?:[A-Za-z_][A-Za-z0-9_']*|\d+))*)|(\+ℤ|-ℤ|\+\+|==|&&|\|\||[λ→↦≡≢≤<⊎×∷+\-*/%^(){}\[\];=:,|]|\.(?:[A-Za-z_]\w*|\d+)|\.)")
KEY = {'if', 'then', 'else', 'elim', 'record', 'as'}
def lex(s):
    out, i = [], 0
    while i < len(s):
        m = TOK.match(s, i)
        if not m: raise SyntaxError('lex %r' % s[i:i+30])
        if m.group(1): out.append(('n', int(m.group(1), 0)))
        elif m.group(2): out.append(('i', m.group(2)))
        elif m.group(3): out.append(('s', m.group(3)))
        i = m.end()
    return out
PREC = {'→': (1, 1), '⊎': (2, 1), '×': (3, 1), '≡': (4, 0), '≢': (4, 0), '≤': (4, 0), '<': (4, 0), '||': (5, 1), '&&': (6, 1), '==': (7, 0),
        '∷': (8, 1), '++': (8, 1), '+': (9, -1), '-': (9, -1), '+ℤ': (9, -1), '-ℤ': (9, -1), '*': (10, -1), '/': (10, -1), '%': (10, -1), '^': (11, 1)}
class P:
    def __init__(self, toks): self.t, self.i = toks, 0
    def peek(self): return self.t[self.i] if self.i < len(self.t) else ('e', None)
    def next(self): t = self.peek(); self.i += 1; return t
    def want(self, s):
        t = self.next()
        if t[1] != s: raise SyntaxError('wanted %s got %r near %r' % (s, t, self.t[max(0, self.i-8):self.i+5]))
    def expr(self, p=0):
        t = self.peek()
        if t == ('s', 'λ'):
            self.next(); names = []
            while self.peek()[0] == 'i' or self.peek() == ('s', '('):
                if self.peek() == ('s', '('):
                    self.next(); names.append(self.next()[1])
                    while self.next() != ('s', ')'): pass
                else: names.append(self.next()[1])
            nm = self.next()
            if nm[1] != '.': raise SyntaxError('lambda %r' % (nm,))
            return ('lam', names, self.expr())
        left = self.app()
        while True:
            t = self.peek()
            if t[0] != 's' or t[1] not in PREC: return left
            q, assoc = PREC[t[1]]
            if q < p: return left
            self.next()
            right = self.expr(q if assoc == 1 else q + 1)
            left = ('op', t[1], left, right)
    def app(self):
        f = self.atom(); args = []
        while True:
            t = self.peek()
            if t[0] in 'n' or (t[0] == 'i' and t[1] not in ('then', 'else', 'as')) or (t[0] == 's' and (t[1] in '(λ' or (t[1] == '[' and self.i + 1 < len(self.t) and self.t[self.i+1] == ('s', ']')))):
                if t == ('s', '{'): break
                args.append(self.expr(99) if t == ('s', 'λ') else self.atom())
            elif t == ('s', '{'):
                d = 0
                while True:   # implicit argument, left out
                    x = self.next()[1]
                    d += x == '{'; d -= x == '}'
                    if d == 0: break
            else: break
        return ('app', f, args) if args else f
    def atom(self):
        e = self.atom0()
        while self.peek()[0] == 's' and len(self.peek()[1]) > 1 and self.peek()[1][0] == '.':
            e = ('get', e, self.next()[1][1:])
        return e
    def atom0(self):
        t = self.next()
        if t[0] == 'n': return ('num', t[1])
        if t == ('s', '('):
            if self.peek() == ('s', ')'): self.next(); return ('con', 'Unit')
            # a binder (x : T)
            j = self.i
            while self.t[j][0] == 'i': j += 1
            if self.t[j] == ('s', ':') and j > self.i:
                names = [x[1] for x in self.t[self.i:j]]; self.i = j + 1
                ty = self.expr(); self.want(')'); return ('bind', names, ty)
            es = [self.expr()]
            while self.peek() == ('s', ','): self.next(); es.append(self.expr())
            self.want(')')
            return es[0] if len(es) == 1 else ('tup', es)
        if t == ('s', '['):
            self.want(']'); return ('nil',)
        if t[0] == 'i':
            w = t[1]
            if w == 'if':
                a = self.expr(); self.want('then'); b = self.expr(); self.want('else'); c = self.expr(); return ('if', a, b, c)
            if w == 'elim':
                a = self.expr(); self.want('['); rows = []
                if self.peek() == ('s', '|'): self.next()
                while True:
                    pt = self.expr(); self.want('↦'); rows.append((pt, self.expr()))
                    x = self.next()
                    if x == ('s', ']'): break
                return ('elim', a, rows)
            if w == 'record':
                base = None
                if self.peek() != ('s', '{'): base = self.atom()
                self.want('{'); fs = []
                while self.peek() != ('s', '}'):
                    n = self.next()[1]; self.want('='); fs.append((n, self.expr()))
                    if self.peek() == ('s', ';'): self.next()
                self.want('}')
                e = ('rec', base, fs)
                return e
            return ('id', w)
        raise SyntaxError('atom %r near %r' % (t, self.t[max(0, self.i-8):self.i+4]))

class Module:
    def __init__(self, path):
        self.path, self.defs, self.imp, self.alias, self.recs, self.cache = path, {}, {}, {}, {}, {}
        parts = path.split('.')
        f = os.path.join(ROOT, parts[1], 'specs', *parts[3:]) + '.antt'
        self.exists = os.path.exists(f)
        if self.exists: self.load(open(f, encoding='utf8').read())
    def load(self, s):
        s = re.sub(r'--[^\n]*', '', s)
        items, cur = [], []
        for line in s.split('\n'):
            if not line.strip(): continue
            if line[0] not in ' )]' and not line.startswith('}'): items.append([line])
            else: items[-1].append(line)
        for it in items:
            h = it[0]; body = '\n'.join(it)
            if h.startswith('use '): self.use(body)
            elif re.match(r'(pub )?data ', h) : continue
            elif re.match(r'pub record ', h): self.record(it)
            elif re.match(r'(abbrev|unfoldable) ', h): continue
            else: self.equation(body)
    def use(self, s):
        s = s[4:].strip()
        m = re.match(r"([\w.]+)\.\{(.*)\}$", s, re.S)
        if m:
            for x in m.group(2).split(','):
                x = x.strip()
                if not x: continue
                a, _, b = x.partition(' as ')
                self.imp[(b or a).strip()] = (m.group(1), a.strip())
        else:
            a, _, b = s.partition(' as ')
            self.alias[(b or a.split('.')[-1]).strip()] = a.strip()
    def record(self, it):
        head = it[0]
        m = re.match(r'pub record (\w+)(.*)', head)
        name, rest = m.group(1), m.group(2)
        text = '\n'.join(it)
        headend = text.index(' where')
        params = []
        for g in re.finditer(r'\(([^():]+):', text[len('pub record ') + len(name):headend]): params += g.group(1).split()
        fields = []
        for g in re.finditer(r'\n  pub (\w+) :\s*([^\n]*(?:\n    [^\n]*)*)', text[headend:]):
            fields.append((g.group(1), g.group(2)))
        self.recs[name] = (params, fields)
    def equation(self, s):
        p = P(lex(s)); toks = p.t
        # the first = at depth 0
        d = 0
        for k, t in enumerate(toks):
            if t[0] == 's':
                if t[1] in '([{': d += 1
                elif t[1] in ')]}': d -= 1
                elif t[1] == '=' and d == 0: break
        lhs = P(toks[:k]); name = lhs.next()[1]; pats = []
        while lhs.i < len(lhs.t):
            if lhs.peek() == ('s', '{'):
                while lhs.next() != ('s', '}'): pass
                continue
            pats.append(lhs.atom())
        self.defs.setdefault(name, []).append((pats, toks[k+1:]))

MODS = {}
def module(path):
    if path not in MODS: MODS[path] = Module(path)
    return MODS[path]
BUILT, OVER = {}, {}
TYPES = set('ℕ ℤ Bool List Option Run Span Sofar Turn Answer AppOuts AppState JobState DataOuts DataState Shown CoresState Front Sub'.split())

def resolve(mod, name):
    if name in mod.cache: return mod.cache[name]
    v = resolve0(mod, name); mod.cache[name] = v; return v
def resolve0(mod, name):
    parts = name.split('.')
    if parts[0] in mod.alias and len(parts) > 1: return Con(parts[-1]) if parts[-1][0].isupper() else None
    if name in mod.defs: return define(mod, name)
    if name in mod.recs: return relation(mod, name)
    if name in mod.imp:
        path, orig = mod.imp[name]
        if path.startswith('Rattle.std.') or path.startswith('Rattle.core.'):
            if orig in BUILT: return BUILT[orig]
            if orig[0].isupper(): return Con(orig)
            raise NameError('builtin %s in %s' % (orig, mod.path))
        if '.declared.' in path or '.TheVariants' in path: return Con(orig)
        m = module(path)
        if not m.exists: return Con(orig)       # constructors of a data type of specs
        return resolve(m, orig)
    if name in BUILT: return BUILT[name]
    if name[0].isupper() or name in '⊤⊥ℕℤ': return Con(name)
    raise NameError('%s in %s' % (name, mod.path))
def define(mod, name):
    key = mod.path.split('.')[-1] + '.' + name
    if key in OVER: return OVER[key]
    eqs = [(pats, P(toks).expr()) for pats, toks in mod.defs[name]]
    n = len(eqs[0][0])
    assert all(len(p) == n for p, _ in eqs), name
    if n == 0:
        return ev(mod, {}, eqs[0][1])
    def call(args, eqs=eqs):
        for pats, body in eqs:
            env = {}
            if all(match(mod, p, a, env) for p, a in zip(pats, args)): return ev(mod, env, body)
        raise ValueError('no case of %s for %r' % (name, args))
    return Fun(n, call, name=name)
def relation(mod, name):
    key = mod.path.split('.')[-1] + '.' + name
    if key in OVER: return OVER[key]
    params, fields = mod.recs[name]
    if not params: return Con(name)
    fs = [(f, P(lex(t)).expr()) for f, t in fields]
    return Fun(len(params), lambda args: Prop('rec', mod, name, dict(zip(params, args)), fs), name=name)
def match(mod, p, v, env):
    k = p[0]
    if k == 'id':
        n = p[1]
        if n == '_': return True
        if n in ('true', 'false'): return deref(v) is (n == 'true')
        if n == 'zero': return deref(v) == 0 and not isinstance(deref(v), bool)
        last = n.split('.')[-1]
        if last[0].isupper():
            v = deref(v); c = resolve(mod, n)
            if isinstance(v, Var): raise ValueError('match on unbound %r' % v)
            return isinstance(v, Con) and v.n == c.n and not v.a
        env[n] = v; return True
    v = deref(v)
    if isinstance(v, Var): raise ValueError('match on unbound %r' % v)
    if k == 'num': return v == p[1]
    if k == 'nil': return v == ()
    if k == 'op' and p[1] == '∷':
        return isinstance(v, tuple) and len(v) > 0 and match(mod, p[2], v[0], env) and match(mod, p[3], v[1:], env)
    if k == 'app':
        n = p[1][1]
        if n == 'suc': return v > 0 and match(mod, p[2][0], v - 1, env)
        if n == 'pos': return v >= 0 and match(mod, p[2][0], v, env)
        if n == 'negsuc': return v < 0 and match(mod, p[2][0], -v - 1, env)
        c = resolve(mod, n)
        return isinstance(v, Con) and v.n == c.n and len(v.a) == len(p[2]) and all(match(mod, q, x, env) for q, x in zip(p[2], v.a))
    if k == 'tup': return all(match(mod, q, x, env) for q, x in zip(p[1], v))
    raise ValueError('pattern %r' % (p,))
def apply(f, args):
    f = deref(f)
    for_args = list(args)
    while for_args:
        if isinstance(f, Con): f = Con(f.n, f.a + tuple(for_args)); break
        if not isinstance(f, Fun): raise ValueError('apply %r to %r' % (f, for_args))
        need = f.n - len(f.a)
        got, for_args = for_args[:need], for_args[need:]
        if len(got) < need: return Fun(f.n, f.call, f.a + tuple(got), f.name)
        f = f.call(f.a + tuple(got))
    return f
def getf(v, f):
    v = deref(v)
    if isinstance(v, Var): raise ValueError('field %s of unbound %r' % (f, v))
    if f.isdigit(): return v[int(f)]
    return v.f[f]
def ev(mod, env, e):
    k = e[0]
    if k == 'num': return e[1]
    if k == 'id':
        n = e[1]
        if n in env: return env[n]
        if n == 'true': return True
        if n == 'false': return False
        if '.' in n:
            parts = n.split('.')
            if parts[0] in env:
                v = env[parts[0]]
                for f in parts[1:]: v = getf(v, f)
                return v
            if parts[0] in mod.alias: return resolve(mod, n)
            v = resolve(mod, parts[0])
            for f in parts[1:]: v = getf(v, f)
            return v
        return resolve(mod, n)
    if k == 'app':
        return apply(ev(mod, env, e[1]), [ev(mod, env, x) for x in e[2]])
    if k == 'get': return getf(ev(mod, env, e[1]), e[2])
    if k == 'if': return ev(mod, env, e[2] if deref(ev(mod, env, e[1])) else e[3])
    if k == 'rec':
        base = dict(deref(ev(mod, env, e[1])).f) if e[1] else {}
        for n, x in e[2]: base[n] = ev(mod, env, x)
        return Rec(base)
    if k == 'nil': return ()
    if k == 'tup': return tuple(ev(mod, env, x) for x in e[1])
    if k == 'con': return Con(e[1])
    if k == 'lam':
        names = e[1]
        return Fun(len(names), lambda a: ev(mod, {**env, **dict(zip(names, a))}, e[2]))
    if k == 'elim':
        v = ev(mod, env, e[1])
        for p, b in e[2]:
            en = dict(env)
            if match(mod, p, v, en): return ev(mod, en, b)
        raise ValueError('elim %r' % (v,))
    if k == 'op':
        o = e[1]
        if o == '&&': return bool(deref(ev(mod, env, e[2]))) and bool(deref(ev(mod, env, e[3])))
        if o == '||': return bool(deref(ev(mod, env, e[2]))) or bool(deref(ev(mod, env, e[3])))
        if o == '→' and e[2][0] == 'bind':
            return Prop('py', lambda: all(solve(ev(mod, {**env, e[2][1][0]: x}, e[3])) for x in range(3)))
        if o in ('×', '⊎', '→'): return Prop(o, lambda: ev(mod, env, e[2]), lambda: ev(mod, env, e[3]))
        a, b = ev(mod, env, e[2]), ev(mod, env, e[3])
        if o == '≡': return Prop('=', a, b)
        if o == '≢': return Prop('≠', a, b)
        if o == '≤': return Prop('≤', a, b)
        if o == '<': return Prop('<', a, b)
        a, b = deref(a), deref(b)
        if o == '∷': return (a,) + b
        if o == '++': return a + b
        if o == '==': return a == b
        if o == '+' or o == '+ℤ': return a + b
        if o == '-': return max(a - b, 0)
        if o == '-ℤ': return a - b
        if o == '*': return a * b
        if o == '/': return a // b if b else 0
        if o == '%': return a % b if b else a
        if o == '^': return a ** b
    raise ValueError('ev %r' % (e,))
HINT = {}
CHECK = bool(os.environ.get('CHECK_BOTH')); BOTH = []
def is_type(mod, e):
    h = e
    while h[0] == 'app': h = h[1]
    return h[0] == 'id' and h[1] in TYPES
def solve(p):
    p = deref(p)
    if isinstance(p, Con):
        if p.n in ('Unit', '⊤'): return True
        if p.n == '⊥': return False
        raise ValueError('prop %r' % p)
    k = p.k
    if k == '=': return unify(p.x[0], p.x[1])
    if k == '≠': return not eqv(p.x[0], p.x[1])
    if k == '≤': return deref(p.x[0]) <= deref(p.x[1])
    if k == '<': return deref(p.x[0]) < deref(p.x[1])
    if k == '×': return solve(p.x[0]()) and solve(p.x[1]())
    if k == '→':
        n = len(TRAIL); ok = solve(p.x[0]())
        if not ok: undo(n); return True
        r = solve(p.x[1]())
        return r
    if k == '⊎':
        n = len(TRAIL)
        if CHECK:
            a = solve(p.x[0]()); undo(n)
            b = solve(p.x[1]()); undo(n)
            if a and b: BOTH.append(p)
        if solve(p.x[0]()):
            return True
        undo(n); return solve(p.x[1]())
    if k == 'py': return p.x[0]()
    if k == 'rec':
        mod, name, env, fs = p.x
        env = dict(env)
        for f, t in fs:
            if is_type(mod, t):
                v = Var(f); env[f] = v
                h = HINT.get((name, f))
                if h: bind(v, h(env))
            else:
                if not solve(ev(mod, env, t)): return False
        return True
    raise ValueError('solve %r' % k)

def built(name, n):
    def deco(g): BUILT[name] = Fun(n, lambda a: g(*[deref(x) for x in a]), name=name); return g
    return deco
def call(f, *a): return deref(apply(f, a))
built('not', 1)(lambda b: not b)
built('nat_lt', 2)(lambda a, b: a < b)
built('nat_le', 2)(lambda a, b: a <= b)
built('nat_eq', 2)(lambda a, b: a == b)
built('int_eq', 2)(lambda a, b: a == b)
built('is_some', 1)(lambda o: o.n == 'Some')
built('map', 2)(lambda f, xs: tuple(call(f, x) for x in xs))
built('filter', 2)(lambda f, xs: tuple(x for x in xs if call(f, x)))
built('find', 2)(lambda f, xs: next((some(x) for x in xs if call(f, x)), NONE))
built('list_any', 2)(lambda f, xs: any(call(f, x) for x in xs))
built('list_all', 2)(lambda f, xs: all(call(f, x) for x in xs))
built('length', 1)(len)
built('take', 2)(lambda n, xs: xs[:n])
built('drop', 2)(lambda n, xs: xs[n:])
built('reverse', 1)(lambda xs: xs[::-1])
built('get_or', 3)(lambda xs, i, d: xs[i] if i < len(xs) else d)
built('set', 3)(lambda xs, i, x: xs[:i] + (x,) + xs[i+1:] if i < len(xs) else xs)
built('replicate', 2)(lambda n, x: (x,) * n)
built('range_with_len', 2)(lambda a, n: tuple(range(a, a + n)))
built('option_map', 2)(lambda f, o: some(call(f, o.a[0])) if o.n == 'Some' else NONE)
built('unwrap_or', 2)(lambda o, d: o.a[0] if o.n == 'Some' else d)
built('min', 2)(min); built('max', 2)(max)
built('slice_get', 2)(lambda xs, i: some(xs[i]) if i < len(xs) else NONE)
built('slice_index_or', 3)(lambda xs, i, d: xs[i] if i < len(xs) else d)
built('pointwise', 3)(lambda f, a, b: a == b)
built('suc', 1)(lambda n: n + 1)
built('pos', 1)(lambda n: n)
built('neg_ℤ', 1)(lambda n: -n)
built('unsigned_abs', 1)(abs)
built('nat_cmp', 2)(lambda a, b: Con('Less' if a < b else 'Greater' if a > b else 'Equal'))
built('slice_cmp', 3)(lambda f, a, b: Con('Less' if a < b else 'Greater' if a > b else 'Equal'))
built('is_lt', 1)(lambda o: o.n == 'Less'); built('is_gt', 1)(lambda o: o.n == 'Greater')
built('is_at', 2)(lambda c, k: call(c, k).n == 'Equal')
built('lookup', 2)(lambda t, m: next((some(v) for k, v in m if call(t, k)), NONE))
built('remove_entry', 2)(lambda t, m: tuple(e for e in m if not call(t, e[0])))
built('insert_entry', 4)(lambda c, m, k, v: tuple(sorted(dict(list(m) + [(k, v)]).items())))
built('starts_with', 3)(lambda f, xs, p: xs[:len(p)] == p)
built('AllByRecursion', 2)(lambda f, xs: Prop('py', lambda: all(solve(apply(f, (x,))) for x in xs)))
BUILT['zero'] = 0; BUILT['⊤'] = Con('⊤'); BUILT['⊥'] = Con('⊥')
built('IfSome', 2)(lambda o, f: apply(f, (o.a[0],)) if o.n == 'Some' else Con('Unit'))
built('IsSomeAnd', 2)(lambda o, f: apply(f, (o.a[0],)) if o.n == 'Some' else Con('⊥'))
built('flat_map', 2)(lambda f, xs: tuple(y for x in xs for y in call(f, x)))


def over(key, n, g):
    """Puts a Python function of n arguments in the place of a definition, as `over('Ordered.KeyMay', 1, ..)`."""
    OVER[key] = Fun(n, lambda a: g(*a), name=key)
