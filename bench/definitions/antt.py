"""Runs the definitions of specs/*.antt: each is turned into a Python function as it is first asked for.

Functions by cases, records, and relations whose result is determined (`after : new ≡ ..` binds `new`). It proves nothing.
"""
import os
import re
import sys
import types

sys.setrecursionlimit(1000000)
ROOT = os.environ.get('ANTT_ROOT', 'crates')


class Rec:
    __slots__ = ('f',)

    def __init__(self, f): self.f = f
    def __repr__(self): return '{%s}' % '; '.join('%s=%r' % kv for kv in self.f.items())
    def __eq__(self, o): return self is o or (o.__class__ is Rec and self.f == o.f) or (o.__class__ is Var and self == deref(o))
    __hash__ = object.__hash__


class Con:
    __slots__ = ('n', 'a')

    def __init__(self, n, a=()): self.n, self.a = n, a
    def __repr__(self): return self.n if not self.a else '(%s %s)' % (self.n, ' '.join(map(repr, self.a)))
    def __eq__(self, o): return self is o or (o.__class__ is Con and self.n == o.n and self.a == o.a) or (o.__class__ is Var and self == deref(o))
    __hash__ = object.__hash__


class Var:
    """An unknown: a choice of a relation, or its result, until it is bound."""
    __slots__ = ('v', 'b', 'name')

    def __init__(self, name=''): self.v, self.b, self.name = None, False, name
    def __repr__(self): return '?%s' % self.name if not self.b else repr(self.v)

    def known(self):
        v = deref(self)
        if v.__class__ is Var: raise ValueError('%s is not known yet' % self.name)
        return v
    f = property(lambda self: self.known().f)
    n = property(lambda self: self.known().n)
    a = property(lambda self: self.known().a)
    def __eq__(self, o): return self is o or (self.b and self.known() == deref(o))
    __hash__ = object.__hash__
    def __bool__(self): return bool(self.known())
    def __add__(self, o): return self.known() + deref(o)
    def __radd__(self, o): return o + self.known()
    def __sub__(self, o): return self.known() - deref(o)
    def __rsub__(self, o): return o - self.known()
    def __lt__(self, o): return self.known() < deref(o)
    def __le__(self, o): return self.known() <= deref(o)
    def __gt__(self, o): return self.known() > deref(o)
    def __ge__(self, o): return self.known() >= deref(o)
    def __len__(self): return len(self.known())
    def __getitem__(self, i): return self.known()[i]
    def __iter__(self): return iter(self.known())
    def __index__(self): return self.known()


class Fun:
    __slots__ = ('k', 'py', 'args', 'name')

    def __init__(self, k, py, args=(), name=''): self.k, self.py, self.args, self.name = k, py, args, name


class Table(Fun):
    """A function of a number as a table, with what it is elsewhere."""
    __slots__ = ('at', 'rest')

    def __init__(self, at, rest):
        self.at, self.rest = at, rest
        Fun.__init__(self, 1, self.look)

    def look(self, q):
        q = deref(q)
        if q in self.at: return self.at[q]
        return ap(self.rest, q)


class Prop:
    __slots__ = ('k', 'x')

    def __init__(self, k, *x): self.k, self.x = k, x


NONE = Con('None')
UNIT = Con('Unit')
def some(x): return Con('Some', (x,))


def deref(v):
    while v.__class__ is Var:
        if not v.b: return v
        v = v.v
    return v


TRAIL = []
def bind(v, x):
    v.v, v.b = x, True
    TRAIL.append(v)


def undo(n=0):
    while len(TRAIL) > n:
        v = TRAIL.pop()
        v.v, v.b = None, False


def unify(a, b):
    a, b = deref(a), deref(b)
    if a is b: return True
    ca, cb = a.__class__, b.__class__
    if ca is Var:
        bind(a, b)
        return True
    if cb is Var:
        bind(b, a)
        return True
    if ca is Rec and cb is Rec: return a.f.keys() == b.f.keys() and all(unify(a.f[k], b.f[k]) for k in a.f)
    if ca is Con and cb is Con: return a.n == b.n and len(a.a) == len(b.a) and all(unify(x, y) for x, y in zip(a.a, b.a))
    if ca is tuple and cb is tuple: return len(a) == len(b) and all(unify(x, y) for x, y in zip(a, b))
    if isinstance(a, Fun) or isinstance(b, Fun): raise ValueError('two functions compared')
    return a == b


def whole(v):
    """The value with every bound unknown in it replaced."""
    v = deref(v)
    c = v.__class__
    if c is Rec:
        return Rec({k: whole(x) for k, x in v.f.items()}) if any_var(v) else v
    if c is Con:
        return Con(v.n, tuple(whole(x) for x in v.a)) if any_var(v) else v
    if c is tuple:
        return tuple(whole(x) for x in v) if any_var(v) else v
    return v


def any_var(v):
    c = v.__class__
    if c is Var: return True
    if c is Rec: return any(any_var(x) for x in v.f.values())
    if c is Con: return any(any_var(x) for x in v.a)
    if c is tuple: return any(any_var(x) for x in v)
    return False


# words and signs

TOK = re.compile(r"\s+|(0x[0-9A-Fa-f]+|\d+)|([A-Za-z_◌⊤⊥ℕℤ«][A-Za-z0-9_'ℕℤ»]*(?:\.(?:[A-Za-z_][A-Za-z0-9_']*|\d+))*)|(\+ℤ|-ℤ|\+\+|==|&&|\|\||[λ→↔↦≡≢≤<⊎×∷+\-*/%^(){}\[\];=:,|]|\.(?:[A-Za-z_]\w*|\d+)|\.)")


def lex(s):
    out, i = [], 0
    while i < len(s):
        m = TOK.match(s, i)
        if not m: raise SyntaxError('lex %r' % s[i:i+30])
        if m.group(1): out.append(('n', int(m.group(1), 0)))
        elif m.group(2): out.append(('i', m.group(2)))
        elif m.group(3): out.append(('s', m.group(3)))
        i = m.end()
    return out


PREC = {'→': (1, 1), '↔': (1, 1), '⊎': (2, 1), '×': (3, 1), '≡': (4, 0), '≢': (4, 0), '≤': (4, 0), '<': (4, 0), '||': (5, 1), '&&': (6, 1), '==': (7, 0),
        '∷': (8, 1), '++': (8, 1), '+': (9, -1), '-': (9, -1), '+ℤ': (9, -1), '-ℤ': (9, -1), '*': (10, -1), '/': (10, -1), '%': (10, -1), '^': (11, 1)}


class P:
    def __init__(self, toks): self.t, self.i = toks, 0
    def peek(self): return self.t[self.i] if self.i < len(self.t) else ('e', None)

    def next(self):
        t = self.peek()
        self.i += 1
        return t

    def want(self, s):
        t = self.next()
        if t[1] != s: raise SyntaxError('wanted %s got %r near %r' % (s, t, self.t[max(0, self.i-8):self.i+5]))

    def whole(self):
        e = self.expr()
        if self.i != len(self.t): raise SyntaxError('left over: %r' % (self.t[self.i:self.i+8],))
        return e

    def expr(self, p=0):
        if self.peek() == ('s', 'λ'):
            self.next()
            names = []
            while self.peek()[0] == 'i' or self.peek() == ('s', '('):
                if self.peek() == ('s', '('):
                    self.next()
                    names.append(self.next()[1])
                    d = 1
                    while d:
                        x = self.next()[1]
                        d += (x == '(') - (x == ')')
                else: names.append(self.next()[1])
            if self.next()[1] != '.': raise SyntaxError('lambda %r' % names)
            return ('lam', names, self.expr())
        left = self.app()
        while True:
            t = self.peek()
            if t[0] != 's' or t[1] not in PREC: return left
            q, assoc = PREC[t[1]]
            if q < p: return left
            self.next()
            right = self.expr(q if assoc == 1 else q + 1)
            binds = [left]
            if left[0] == 'app' and left[1][0] == 'bind': binds = [left[1]] + left[2]     # (a : X) (b : Y) → ..
            for b in reversed(binds): right = ('op', t[1], b, right)
            left = right

    def app(self):
        f, args = self.atom(), []
        while True:
            t = self.peek()
            nil = t == ('s', '[') and self.i + 1 < len(self.t) and self.t[self.i+1] == ('s', ']')
            if t[0] == 'n' or (t[0] == 'i' and t[1] not in ('then', 'else', 'as')) or t in (('s', '('), ('s', 'λ')) or nil:
                args.append(self.expr(99) if t == ('s', 'λ') else self.atom())
            elif t == ('s', '{'):
                d = 0
                while True:   # an implicit argument is left out
                    x = self.next()[1]
                    d += (x == '{') - (x == '}')
                    if d == 0: break
            else: break
        return ('app', f, args) if args else f

    def atom(self):
        e = self.atom0()
        while self.peek()[0] == 's' and len(self.peek()[1]) > 1 and self.peek()[1][0] == '.':
            e = ('get', e, self.next()[1][1:])
        return e

    def atom0(self):
        t = self.next()
        if t[0] == 'n': return ('num', t[1])
        if t == ('s', '('):
            if self.peek() == ('s', ')'):
                self.next()
                return ('con', 'Unit')
            j = self.i
            while self.t[j][0] == 'i': j += 1
            if self.t[j] == ('s', ':') and j > self.i:
                names = [x[1] for x in self.t[self.i:j]]
                self.i = j + 1
                ty = self.expr()
                self.want(')')
                return ('bind', names, ty)
            es = [self.expr()]
            while self.peek() == ('s', ','):
                self.next()
                es.append(self.expr())
            self.want(')')
            return es[0] if len(es) == 1 else ('tup', es)
        if t == ('s', '['):
            self.want(']')
            return ('nil',)
        if t[0] == 'i':
            w = t[1]
            if w == 'if':
                a = self.expr()
                self.want('then')
                b = self.expr()
                self.want('else')
                return ('if', a, b, self.expr())
            if w == 'elim':
                a, rows = self.expr(), []
                self.want('[')
                if self.peek() == ('s', '|'): self.next()
                while True:
                    pt = self.expr()
                    self.want('↦')
                    rows.append((pt, self.expr()))
                    x = self.next()
                    if x == ('s', ']'): break
                    if x != ('s', '|'): raise SyntaxError('elim %r' % (x,))
                return ('elim', a, rows)
            if w == 'record':
                base = None
                if self.peek() != ('s', '{'): base = self.atom()
                self.want('{')
                fs = []
                while self.peek() != ('s', '}'):
                    n = self.next()[1]
                    self.want('=')
                    fs.append((n, self.expr()))
                    if self.peek() == ('s', ';'): self.next()
                self.want('}')
                return ('rec', base, fs)
            return ('id', w)
        raise SyntaxError('atom %r near %r' % (t, self.t[max(0, self.i-8):self.i+4]))


# files

CONSTANTS = {}


def constants(crate):
    """The numbers that the sources of a crate declare."""
    if crate not in CONSTANTS:
        found, d = {}, os.path.join(ROOT, crate, 'src')
        for f in sorted(os.listdir(d)) if os.path.isdir(d) else ():
            for m in re.finditer(r'pub const (\w+): \w+ = ([\d_xA-Fa-f]+);', open(os.path.join(d, f), encoding='utf8').read()):
                found[m.group(1)] = int(m.group(2).replace('_', ''), 0)
        CONSTANTS[crate] = found
    return CONSTANTS[crate]


class Module:
    def __init__(self, path):
        self.path, self.defs, self.imp, self.alias, self.recs, self.syms = path, {}, {}, {}, {}, {}
        parts = path.split('.')
        self.crate, self.short = parts[1], parts[-1]
        f = os.path.join(ROOT, parts[1], 'specs', *parts[3:]) + '.antt'
        self.exists = os.path.exists(f)
        if self.exists:
            try: self.load(open(f, encoding='utf8').read())
            except SyntaxError as e: raise SyntaxError('%s: %s' % (path, e))

    def load(self, s):
        s = re.sub(r'--[^\n]*', '', s)
        items = []
        for line in s.split('\n'):
            if not line.strip(): continue
            if line[0] not in ' )]}': items.append([line])
            else: items[-1].append(line)
        for it in items:
            h, body = it[0], '\n'.join(it)
            if h.startswith('use '): self.use(body)
            elif re.match(r'(pub )?data ', h): self.data(body)
            elif re.match(r'(pub )?record ', h): self.record(body)
            elif re.match(r'(abbrev|unfoldable|pub mod|module) ', h): continue
            else: self.equation(body)

    def use(self, s):
        s = s[4:].strip()
        m = re.match(r"([\w.]+)\.\{(.*)\}$", s, re.S)
        if m:
            for x in m.group(2).split(','):
                x = x.strip()
                if not x: continue
                a, _, b = x.partition(' as ')
                self.imp[(b or a).strip()] = (m.group(1), a.strip())
        else:
            a, _, b = s.partition(' as ')
            self.alias[(b or a.split('.')[-1]).strip()] = a.strip()

    def data(self, body):
        for m in re.finditer(r'\n  (\w+) :', body): self.defs.setdefault(m.group(1), 'con')
        self.defs.setdefault(re.match(r'(?:pub )?data (\w+)', body).group(1), 'con')

    def record(self, body):
        m = re.match(r'(?:pub )?record (\w+)(.*?) where(.*)$', body, re.S)
        name, head, rest = m.group(1), m.group(2), m.group(3)
        params, kinds = [], []
        toks, d, i = lex(head), 0, 0
        while i < len(toks):
            if toks[i] in (('s', '('), ('s', '{')):
                names, j, implicit = [], i + 1, toks[i][1] == '{'
                while toks[j][0] == 'i':
                    names.append(toks[j][1])
                    j += 1
                d, k = 1, j + 1
                while d:
                    d += (toks[k][1] in '({') - (toks[k][1] in ')}') if toks[k][0] == 's' else 0
                    k += 1
                if not implicit:
                    params += names
                    kinds += [toks[j+1][1]] * len(names)
                i = k
            elif toks[i] == ('s', ':'): break
            else: raise SyntaxError('record %s: %r' % (name, toks[i]))
        fields = []
        for line in rest.split('\n'):
            if not line.strip(): continue
            m = re.match(r"  (?:pub )?([\w']+)\s*:\s*(.*)$", line)
            if m: fields.append([m.group(1), m.group(2)])
            elif (line.startswith('    ') or line[2] in ')}]') and fields: fields[-1][1] += '\n' + line
            else: raise SyntaxError('record %s: %r' % (name, line))
        self.recs[name] = (params, kinds, [(f, P(lex(t)).whole()) for f, t in fields])

    def equation(self, s):
        toks, d = lex(s), 0
        for k, t in enumerate(toks):
            if t[0] == 's':
                if t[1] in '([{': d += 1
                elif t[1] in ')]}': d -= 1
                elif t[1] == '=' and d == 0: break
        else: raise SyntaxError('no equation: %r' % s[:60])
        lhs = P(toks[:k])
        name, pats = lhs.next()[1], []
        while lhs.i < len(lhs.t):
            if lhs.peek() == ('s', '{'):
                while lhs.next() != ('s', '}'): pass
                continue
            pats.append(lhs.atom())
        self.defs.setdefault(name, []).append((pats, P(toks[k+1:]).whole()))


MODS = {}
def module(path):
    if path not in MODS: MODS[path] = Module(path)
    return MODS[path]


# code

BUILT, OVER, HINT, DOMAIN = {}, {}, {}, {}
NS = {}
CONSTS = {}
FAILS = []


def ident(s): return 'v_' + s.replace("'", '_q')
def con_sym(name):
    if name not in CONSTS:
        CONSTS[name] = 'C_%d_%s' % (len(CONSTS), re.sub(r'[^A-Za-z0-9_]', '_', name))
        NS[CONSTS[name]] = UNIT if name == 'Unit' else NONE if name == 'None' else Con(name)
    return CONSTS[name]


def find(mod, name):
    """What a name means: ('con', name), ('value', Python value), ('def', module, name), ('rec', module, name)."""
    if name in mod.defs:
        if mod.defs[name] == 'con': return ('con', name)
        return ('def', mod, name)
    if name in mod.recs: return ('rec', mod, name)
    if name in mod.imp:
        path, orig = mod.imp[name]
        if path.endswith('.TheConstants'): return ('value', constants(path.split('.')[1])[orig])
        if path.startswith('Rattle.std.') or path.startswith('Rattle.core.'):
            if orig in BUILT: return ('value', BUILT[orig])
            if orig[0].isupper() or orig in ('⊤', '⊥', 'ℕ', 'ℤ'): return ('con', orig)
            raise NameError('builtin %s in %s' % (orig, mod.path))
        if '.declared.' in path or '.TheVariants' in path: return ('con', orig)
        m = module(path)
        if not m.exists:
            if orig[0].isupper() or orig in ('⊤', '⊥', 'ℕ', 'ℤ'): return ('con', orig)
            raise NameError('no module %s (for %s in %s)' % (path, orig, mod.path))
        return find(m, orig)
    if name in BUILT: return ('value', BUILT[name])
    if name[0].isupper() or name in ('⊤', '⊥', 'ℕ', 'ℤ'): return ('con', name)
    raise NameError('%s in %s' % (name, mod.path))


def found(mod, name):
    """The same of a dotted name, with the fields that are left."""
    parts = name.split('.')
    if len(parts) > 1 and parts[0] in mod.alias:
        path = mod.alias[parts[0]]
        if '.specs.declared.' in path or path.endswith('.TheVariants') or not module(path).exists: return ('con', parts[1]), parts[2:]
        return find(module(path), parts[1]), parts[2:]
    return find(mod, parts[0]), parts[1:]


def over_of(mod, name):
    for key in (mod.crate + '.' + mod.short + '.' + name, mod.short + '.' + name):
        if key in OVER: return OVER[key]
    return None


def symbol(what):
    """The Python name of a definition or a record, which is made when it is first called."""
    kind, mod, name = what
    if name in mod.syms: return mod.syms[name]
    sym = 'f%d_%s_%s' % (len(NS), re.sub(r'[^A-Za-z0-9_]', '_', mod.short), re.sub(r'[^A-Za-z0-9_]', '_', name))
    mod.syms[name] = sym
    o = over_of(mod, name)
    if o is not None:
        NS[sym] = o.py
        return sym

    def stub(*args):
        if kind == 'def': make_def(mod, name, sym)
        else: make_record(mod, name, sym)
        return NS[sym](*args)
    NS[sym] = stub
    return sym


def arity(what):
    kind, mod, name = what
    o = over_of(mod, name)
    if o is not None: return o.k
    return len(mod.defs[name][0][0]) if kind == 'def' else len(mod.recs[name][0])


INLINE = {'length': 'len({0})', 'not': '(not {0})', 'nat_lt': '({0} < {1})', 'nat_le': '({0} <= {1})', 'nat_eq': '({0} == {1})', 'int_eq': '({0} == {1})',
          'is_some': '({0}.n == "Some")', 'take': '{1}[:{0}]', 'drop': '{1}[{0}:]', 'suc': '({0} + 1)', 'pos': '{0}', 'is_lt': '({0}.n == "Less")',
          'is_gt': '({0}.n == "Greater")', 'pointwise': '({1} == {2})', 'range_with_len': 'tuple(range({0}, {0} + {1}))'}


class Gen:
    def __init__(self, mod): self.mod, self.extra = mod, []

    def value_of(self, what):
        """A name by itself."""
        if what[0] == 'con': return con_sym(what[1])
        if what[0] == 'value':
            v = what[1]
            if isinstance(v, int): return repr(v)
            key = 'B_%s' % re.sub(r'[^A-Za-z0-9_]', '_', getattr(v, 'name', '') or str(id(v)))
            NS[key] = v
            return key
        if what[0] == 'rec' and not self.mod_params(what): return con_sym(what[2])
        n, sym = arity(what), symbol(what)
        return '%s()' % sym if n == 0 else 'Fun(%d, lambda *a: %s(*a), (), %r)' % (n, sym, what[2])

    @staticmethod
    def mod_params(what): return what[1].recs[what[2]][0]

    def ident(self, env, name):
        parts = name.split('.')
        if name in env: return ident(name)
        if name in ('true', 'false'): return name.capitalize()
        if parts[0] in env: out, rest = ident(parts[0]), parts[1:]
        else:
            what, rest = found(self.mod, name)
            out = self.value_of(what)
        for p in rest: out = '%s[%s]' % (out, p) if p.isdigit() else '%s.f[%r]' % (out, p)
        return out

    def head(self, env, e):
        if e[0] != 'id' or e[1].split('.')[0] in env or e[1] in ('true', 'false'): return None
        what, rest = found(self.mod, e[1])
        return what if not rest else None

    def expr(self, env, e):
        k = e[0]
        if k == 'num': return str(e[1])
        if k == 'id': return self.ident(env, e[1])
        if k == 'nil': return '()'
        if k == 'con': return con_sym(e[1])
        if k == 'tup': return '(%s,)' % ', '.join(self.expr(env, x) for x in e[1])
        if k == 'get':
            x = self.expr(env, e[1])
            return '%s[%s]' % (x, e[2]) if e[2].isdigit() else '%s.f[%r]' % (x, e[2])
        if k == 'if': return '(%s if %s else %s)' % (self.expr(env, e[2]), self.expr(env, e[1]), self.expr(env, e[3]))
        if k == 'lam':
            inner = env | set(e[1])
            return 'Fun(%d, lambda %s: %s)' % (len(e[1]), ', '.join('_%d' % i if n == '_' else ident(n) for i, n in enumerate(e[1])), self.expr(inner, e[2]))
        if k == 'rec':
            fs = ', '.join('%r: %s' % (n, self.expr(env, x)) for n, x in e[2])
            return 'Rec({**%s.f, %s})' % (self.expr(env, e[1]), fs) if e[1] else 'Rec({%s})' % fs
        if k == 'elim':
            sym = 'e%d_%s' % (len(NS), re.sub(r'[^A-Za-z0-9_]', '_', self.mod.short))
            NS[sym] = None
            free = sorted(env)
            self.function(sym, ['s_'] + [ident(x) for x in free], [([pt], body) for pt, body in e[2]], set(free), ['s_'])
            return '%s(%s)' % (sym, ', '.join([self.expr(env, e[1])] + [ident(x) for x in free]))
        if k == 'app': return self.app(env, e)
        if k == 'op': return self.op(env, e)
        raise ValueError('expr %r' % (e,))

    def app(self, env, e):
        args = [self.expr(env, x) for x in e[2]]
        what = self.head(env, e[1])
        if what is None: return 'ap(%s, %s)' % (self.expr(env, e[1]), ', '.join(args))
        if what[0] == 'con': return 'Con(%r, (%s,))' % (what[1], ', '.join(args))
        if what[0] == 'value':
            form = INLINE.get(getattr(what[1], 'name', None))
            if form and len(args) == what[1].k: return form.format(*args)
            return 'ap(%s, %s)' % (self.value_of(what), ', '.join(args))
        n, sym = arity(what), symbol(what)
        if n == 0: return 'ap(%s(), %s)' % (sym, ', '.join(args))
        if len(args) == n: return '%s(%s)' % (sym, ', '.join(args))
        if len(args) > n: return 'ap(%s(%s), %s)' % (sym, ', '.join(args[:n]), ', '.join(args[n:]))
        return 'Fun(%d, lambda *a: %s(*a), (%s,), %r)' % (n, sym, ', '.join(args), what[2])

    def op(self, env, e):
        o = e[1]
        if o in ('→', '×') and e[2][0] == 'bind':
            names, ty = e[2][1], e[2][2]
            inner = env | set(names)
            body = 'lambda %s: %s' % (', '.join(ident(n) for n in names), self.expr(inner, e[3]))
            return 'Prop(%r, %r, %r, %s)' % ('∀' if o == '→' else '∃', tuple(names), type_head(ty), body)
        a, b = self.expr(env, e[2]), self.expr(env, e[3])
        if o in ('×', '⊎', '→', '↔'): return 'Prop(%r, lambda: %s, lambda: %s)' % (o, a, b)
        if o in ('≡', '≢', '≤', '<'): return 'Prop(%r, %s, %s)' % (o, a, b)
        if o == '&&': return '(%s and %s)' % (a, b)
        if o == '||': return '(%s or %s)' % (a, b)
        if o == '∷': return '((%s,) + %s)' % (a, b)
        if o == '++': return '(%s + %s)' % (a, b)
        if o == '==': return '(%s == %s)' % (a, b)
        if o in ('+', '+ℤ'): return '(%s + %s)' % (a, b)
        if o == '-': return 'max(%s - %s, 0)' % (a, b)
        if o == '-ℤ': return '(%s - %s)' % (a, b)
        if o == '*': return '(%s * %s)' % (a, b)
        if o == '/': return 'div(%s, %s)' % (a, b)
        if o == '%': return 'mod(%s, %s)' % (a, b)
        if o == '^': return '(%s ** %s)' % (a, b)
        raise ValueError('op %s' % o)

    def match(self, p, at, env, lines, ind):
        """Lines that leave this case where the value isn't of the pattern."""
        k = p[0]
        if k == 'id':
            n = p[1]
            if n == '_': return
            if n in ('true', 'false'):
                lines.append('%sif %s%s: break' % (ind, 'not ' if n == 'true' else '', at))
                return
            if n == 'zero':
                lines.append('%sif %s != 0: break' % (ind, at))
                return
            if not is_var(self.mod, p):
                what, _ = found(self.mod, n)
                lines.append('%sif %s.n != %r: break' % (ind, at, what[1]))
                return
            lines.append('%s%s = %s' % (ind, ident(n), at))
            env.add(n)
            return
        if k == 'num': lines.append('%sif %s != %d: break' % (ind, at, p[1]))
        elif k == 'nil': lines.append('%sif len(%s): break' % (ind, at))
        elif k == 'op' and p[1] == '∷':
            t = self.temp(lines, ind, at)
            lines.append('%sif not len(%s): break' % (ind, t))
            self.match(p[2], 'D(%s[0])' % t, env, lines, ind)
            self.match(p[3], '%s[1:]' % t, env, lines, ind)
        elif k == 'app':
            n = p[1][1]
            t = self.temp(lines, ind, at)
            if n == 'suc':
                lines.append('%sif %s <= 0: break' % (ind, t))
                self.match(p[2][0], '(%s - 1)' % t, env, lines, ind)
            elif n == 'pos':
                lines.append('%sif %s < 0: break' % (ind, t))
                self.match(p[2][0], t, env, lines, ind)
            elif n == 'negsuc':
                lines.append('%sif %s >= 0: break' % (ind, t))
                self.match(p[2][0], '(-%s - 1)' % t, env, lines, ind)
            else:
                what, _ = found(self.mod, n)
                assert what[0] == 'con', (self.mod.path, n)
                lines.append('%sif %s.n != %r or len(%s.a) != %d: break' % (ind, t, what[1], t, len(p[2])))
                for i, q in enumerate(p[2]): self.match(q, 'D(%s.a[%d])' % (t, i), env, lines, ind)
        elif k == 'tup':
            t = self.temp(lines, ind, at)
            for i, q in enumerate(p[1]): self.match(q, 'D(%s[%d])' % (t, i), env, lines, ind)
        else: raise ValueError('pattern %r' % (p,))

    count = 0
    def temp(self, lines, ind, at):
        if re.match(r'\w+$', at): return at
        Gen.count += 1
        lines.append('%st%d = %s' % (ind, Gen.count, at))
        return 't%d' % Gen.count

    def function(self, sym, params, rows, env0, scrutinees):
        lines = ['def %s(%s):' % (sym, ', '.join(params))]
        plain = all(is_var(self.mod, p) for p in rows[0][0])
        for i, s in enumerate(scrutinees):
            if not all(is_var(self.mod, row[0][i]) for row in rows): lines.append('    if %s.__class__ is Var: %s = D(%s)' % (s, s, s))
        for pats, body in rows:
            env, ind = set(env0), '        '
            lines.append('    while True:')
            for p, s in zip(pats, scrutinees): self.match(p, s, env, lines, ind)
            lines.append('%sreturn %s' % (ind, self.expr(env, body)))
            if plain: break
        if not plain: lines.append('    raise ValueError("no case of %s for %%r" %% ((%s,),))' % (sym, ', '.join(scrutinees)))
        run_code(sym, '\n'.join(lines))


def is_var(mod, p):
    """A pattern that takes each value: a name that is no constructor."""
    if p[0] != 'id' or p[1] in ('true', 'false', 'zero'): return False
    return not p[1].split('.')[-1][0].isupper() or not ('.' in p[1] or p[1] in mod.imp or p[1] in mod.defs)


def type_head(ty):
    while ty[0] == 'app': ty = ty[1]
    return ty[1] if ty[0] == 'id' else ''


def run_code(sym, text):
    exec(compile(text, '<%s>' % sym, 'exec'), NS)


def make_def(mod, name, sym):
    g, rows = Gen(mod), mod.defs[name]
    n = len(rows[0][0])
    assert all(len(p) == n for p, _ in rows), name
    if n == 0:
        v = eval(g.expr(set(), rows[0][1]), NS)
        NS[sym] = lambda: v
        return
    ps = ['a%d' % i for i in range(n)]
    g.function(sym, ps, rows, set(), ps)
    if mod.short + '.' + name in MEMO: NS[sym] = remembering(NS[sym])


MEMO = set()
KEPT = []


def part_key(x):
    c = x.__class__
    if c is int or c is bool: return x
    if c is tuple: return tuple(map(id, x))
    return id(x)


def remembering(f):
    """The same function, which keeps what it was asked; lists are known by the parts that they have."""
    kept = {}
    KEPT.append(kept)

    def g(*args):
        args = tuple(map(deref, args))
        key = tuple(map(part_key, args))
        if key not in kept: kept[key] = (f(*args), args)
        return kept[key][0]
    return g


def forget():
    for k in KEPT: k.clear()


def is_data(g, env, t):
    """A field of this type is a choice, and no condition."""
    if t[0] == 'op': return t[1] in ('→', '×') and t[2][0] != 'bind' and is_data(g, env, t[2]) and is_data(g, env, t[3])
    h = t
    while h[0] == 'app': h = h[1]
    what = g.head(env, h)
    if what is None: return False
    if what[0] == 'con': return what[1] not in ('⊤', '⊥', 'Unit')
    if what[0] == 'rec':
        _, m, n = what
        return all(k == 'Type' for k in m.recs[n][1])
    if what[0] == 'def' and what[2] == 'Map': return True
    return False


def make_record(mod, name, sym):
    """A relation: its conditions one after the other, with its choices as unknowns."""
    g = Gen(mod)
    params, kinds, fields = mod.recs[name]
    env = set(params)
    args = ', '.join(ident(p) for p in params)
    lines = ['def %s(%s): return Prop("py", lambda: %s_is(%s))' % (sym, args, sym, args), 'def %s_is(%s):' % (sym, args)]
    for p in params: lines.append('    if %s.__class__ is Var: %s = D(%s)' % (ident(p), ident(p), ident(p)))
    for f, t in fields:
        if is_data(g, env, t):
            if t[0] == 'op' and t[1] == '→': lines.append('    %s = unknown_function()' % ident(f))
            else: lines.append('    %s = Var(%r)' % (ident(f), f))
            if (name, f) in HINT:
                here = '{%s}' % ', '.join('%r: %s' % (x, ident(x)) for x in sorted(env))
                lines.append('    bind(%s, HINT[%r](%s))' % (ident(f), (name, f), here))
            env.add(f)
        else:
            lines.append('    if not solve(%s):' % g.expr(env, t))
            lines.append('        return failed(%r)' % (name + '.' + f))
    lines.append('    return True')
    run_code(sym, '\n'.join(lines))


def unknown_function():
    at = {}

    def look(q):
        q = deref(q)
        if q not in at: at[q] = Var('at %r' % (q,))
        return at[q]
    return Fun(1, look)


def failed(what):
    FAILS.append(what)
    return False


def ap(f, *args):
    f = deref(f)
    while True:
        if f.__class__ is Con: return Con(f.n, f.a + args)
        if not isinstance(f, Fun): raise ValueError('%r is no function, for %r' % (f, args))
        if f.args: args = f.args + args
        if len(args) == f.k: return f.py(*args)
        if len(args) < f.k: return Fun(f.k, f.py, args, f.name)
        f, args = deref(f.py(*args[:f.k])), args[f.k:]


def solve(p):
    p = deref(p)
    if p.__class__ is Con:
        if p.n in ('Unit', '⊤'): return True
        if p.n == '⊥': return False
        raise ValueError('no proposition: %r' % p)
    k, x = p.k, p.x
    if k == '≡': return unify(x[0], x[1])
    if k == 'py': return x[0]()
    if k == '×': return solve(x[0]()) and solve(x[1]())
    if k == '⊎':
        n, m = len(TRAIL), len(FAILS)
        if solve(x[0]()): return True
        undo(n)
        if solve(x[1]()):
            del FAILS[m:]
            return True
        return False
    if k == '≢': return not deref(x[0]) == deref(x[1])
    if k == '≤': return deref(x[0]) <= deref(x[1])
    if k == '<': return deref(x[0]) < deref(x[1])
    if k == '→':
        n, m = len(TRAIL), len(FAILS)
        if not solve(x[0]()):
            undo(n)
            del FAILS[m:]
            return True
        return solve(x[1]())
    if k == '↔':
        return solve(x[0]()) == solve(x[1]())
    if k == '∀':
        return all_of(x[0], x[1], x[2], ())
    if k == '∃':
        return solve(x[2](*[Var(n) for n in x[0]]))
    raise ValueError('solve %r' % k)


def all_of(names, ty, body, got):
    if len(got) == len(names):
        if not solve(body(*got)):
            FAILS.append('at %s' % ', '.join('%s = %r' % nv for nv in zip(names, got)))
            return False
        return True
    n = names[len(got)]
    dom = DOMAIN.get((n, ty), DOMAIN.get(n, DOMAIN.get(ty)))
    if dom is None: raise ValueError('no domain of %s : %s' % (n, ty))
    return all(all_of(names, ty, body, got + (v,)) for v in (dom(dict(zip(names, got))) if callable(dom) else dom))


def div(a, b): return a // b if b else 0
def mod_(a, b): return a % b if b else a


NS.update({'Rec': Rec, 'Con': Con, 'Var': Var, 'Fun': Fun, 'Prop': Prop, 'D': deref, 'ap': ap, 'solve': solve, 'bind': bind, 'HINT': HINT,
           'failed': failed, 'unknown_function': unknown_function, 'div': div, 'mod': mod_, 'max': max})


def built(name, n):
    def deco(g):
        BUILT[name] = Fun(n, lambda *a: g(*[deref(x) for x in a]), (), name)
        return g
    return deco


def call(f, *a): return deref(ap(f, *a))
def has(f):
    """A test as a Python function."""
    return (lambda x: call(f, x)) if f.__class__ is not Fun or f.args or f.k != 1 else f.py


built('not', 1)(lambda b: not b)
built('nat_lt', 2)(lambda a, b: a < b)
built('nat_le', 2)(lambda a, b: a <= b)
built('nat_eq', 2)(lambda a, b: a == b)
built('int_eq', 2)(lambda a, b: a == b)
built('is_some', 1)(lambda o: o.n == 'Some')
built('map', 2)(lambda f, xs: tuple([call(f, x) for x in xs]))
built('filter', 2)(lambda f, xs: tuple([x for x in xs if call(f, x)]))
built('find', 2)(lambda f, xs: next((some(x) for x in xs if call(f, x)), NONE))
built('list_any', 2)(lambda f, xs: any(call(f, x) for x in xs))
built('list_all', 2)(lambda f, xs: all(call(f, x) for x in xs))
built('length', 1)(len)
built('take', 2)(lambda n, xs: xs[:n])
built('drop', 2)(lambda n, xs: xs[n:])
built('reverse', 1)(lambda xs: xs[::-1])
built('get_or', 3)(lambda xs, i, d: xs[i] if i < len(xs) else d)
built('set', 3)(lambda xs, i, x: xs[:i] + (x,) + xs[i+1:] if i < len(xs) else xs)
built('replicate', 2)(lambda n, x: (x,) * n)
built('range_with_len', 2)(lambda a, n: tuple(range(a, a + n)))
built('option_map', 2)(lambda f, o: some(call(f, o.a[0])) if o.n == 'Some' else NONE)
built('unwrap_or', 2)(lambda o, d: o.a[0] if o.n == 'Some' else d)
built('min', 2)(min)
built('max', 2)(max)
built('slice_get', 2)(lambda xs, i: some(xs[i]) if i < len(xs) else NONE)
built('slice_index_or', 3)(lambda xs, i, d: xs[i] if i < len(xs) else d)
built('pointwise', 3)(lambda f, a, b: a == b)
built('suc', 1)(lambda n: n + 1)
built('pos', 1)(lambda n: n)
built('neg_ℤ', 1)(lambda n: -n)
built('unsigned_abs', 1)(abs)
built('nat_cmp', 2)(lambda a, b: Con('Less' if a < b else 'Greater' if a > b else 'Equal'))
built('slice_cmp', 3)(lambda f, a, b: Con('Less' if a < b else 'Greater' if a > b else 'Equal'))
built('is_lt', 1)(lambda o: o.n == 'Less')
built('is_gt', 1)(lambda o: o.n == 'Greater')
built('is_at', 2)(lambda c, k: call(c, k).n == 'Equal')
built('lookup', 2)(lambda t, m: next((some(v) for k, v in m if call(t, k)), NONE))
built('remove_entry', 2)(lambda t, m: tuple(e for e in m if not call(t, e[0])))
built('insert_entry', 4)(lambda c, m, k, v: tuple(sorted(dict(list(m) + [(k, v)]).items())))
built('starts_with', 3)(lambda f, xs, p: xs[:len(p)] == p)
built('AllByRecursion', 2)(lambda f, xs: Prop('py', lambda: all(solve(ap(f, x)) for x in xs)))
built('All', 2)(lambda f, xs: Prop('py', lambda: all(solve(ap(f, x)) for x in xs)))
BUILT['zero'] = 0
built('IfSome', 2)(lambda o, f: ap(f, o.a[0]) if o.n == 'Some' else UNIT)
built('IsSomeAnd', 2)(lambda o, f: ap(f, o.a[0]) if o.n == 'Some' else Con('⊥'))
def digits_of(base, n):
    out = ()
    while n: n, out = n // base, (n % base,) + out
    return out


built('sum_by', 2)(lambda f, xs: sum(call(f, x) for x in xs))
built('digits_of', 2)(digits_of)
built('flat_map', 2)(lambda f, xs: tuple([y for x in xs for y in call(f, x)]))


def over(key, n, g):
    """Puts a Python function of n arguments in the place of a definition, as `over('Ordered.KeyMay', 1, ..)`; before it is first used."""
    OVER[key] = Fun(n, g, (), key)


def word(path, name):
    """A definition as a Python function."""
    m = module(path)
    if not m.exists: raise NameError('no module %s' % path)
    what = find(m, name)
    n = arity(what)
    sym = symbol(what)
    if n == 0: return NS[sym]()
    return lambda *a: NS[sym](*a)
