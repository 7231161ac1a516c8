"""The cluster by its definitions: each move is asked of `Allowed`, and `CoresMade` makes the step; each act is asked of the plain machine."""
import os
import re
import antt
from antt import Con, Rec, Var, Prop, NONE, some, apply, deref, module, resolve, solve, undo, unify
from rows_text import sub_at

# where the words stand; a crate that takes some of them over is named here
WHERE = {
    'Allowed': 'Rattle.cluster_runs.specs.Moves',
    'CoresMade': 'Rattle.cluster_runs.specs.Steps',
    'start': 'Rattle.cluster_runs.specs.CoresState',
    'MayCome': 'Rattle.plain_runs.specs.Step',
    'after': 'Rattle.plain_runs.specs.Step',
    'plain_start': 'Rattle.plain_runs.specs.Plain',
    'fold': 'Rattle.plain_orders.specs.Fold',
    'fold_step': 'Rattle.plain_orders.specs.Fold',
    'nothing_folded': 'Rattle.plain_orders.specs.Fold',
    'work_of': 'Rattle.app_rules.specs.JobStep',
    'refusal_of': 'Rattle.app_rules.specs.Refusing',
    'why_of': 'Rattle.app_rules.specs.Waiting',
    'WaitsFor': 'Rattle.app_rules.specs.Waiting',
}


def word(name, as_name=None):
    return resolve(module(WHERE[as_name or name]), name)


def is_before(a, b):
    return tuple(a) < tuple(b)


def block_bytes(run):
    def part(bytes_):
        return (len(bytes_) // 256, len(bytes_) % 256) + tuple(bytes_)
    f = run.f
    out = (1,) + part(f['span'].f['lo']) + part(f['span'].f['hi']) + (len(f['pairs']) // 256, len(f['pairs']) % 256)
    for p in f['pairs']:
        out += part(p.f['key']) + part(p.f['value'])
    return out


def run_of(block):
    """The run of a block, or none."""
    block, place = deref(block), [1]
    def number():
        place[0] += 2
        return block[place[0] - 2] * 256 + block[place[0] - 1]
    def part():
        n = number()
        place[0] += n
        return tuple(block[place[0] - n:place[0]])
    try:
        lo, hi = part(), part()
        pairs = tuple(Rec({'key': part(), 'value': part()}) for _ in range(number()))
    except IndexError:
        return None
    run = Rec({'span': Rec({'lo': lo, 'hi': hi}), 'pairs': pairs})
    keys = [p.f['key'] for p in pairs]
    good = lo < hi and keys == sorted(set(keys)) and all(lo <= k < hi for k in keys) and block_bytes(run) == tuple(block) and len(block) <= 8192
    return run if good else None


def is_block_of(run, block):
    def ask():
        r, b = deref(run), deref(block)
        if isinstance(b, Var):
            return len(block_bytes(r)) <= 8192 and unify(b, block_bytes(r))
        found = run_of(b)
        return found is not None and unify(run, found)
    return Prop('py', ask)


def is_sub_in(parent, key, found):
    def ask():
        k = deref(key)
        if k.n == 'None':
            return unify(found, NONE)
        return unify(found, some(sub_at(k.a[0], len(deref(parent)))[0]))
    return Prop('py', ask)


PLAIN = {}


def plain_of(c):
    """The plain machine after a trail, which grows at its end."""
    trail, layout = deref(c).f['trail'], deref(c).f['layout']
    n = len(trail)
    while n and (n, trail[n - 1]) not in PLAIN:
        n -= 1
    state = PLAIN[(n, trail[n - 1])] if n else word('start', 'plain_start')
    for i in range(n, len(trail)):
        state = deref(apply(word('after'), (layout, state, trail[i])))
        PLAIN[(i + 1, trail[i])] = state
    return state


FOLDS = []


def fold_on(entries):
    """The definition's own fold: what was folded last, and the entries more by its own step."""
    entries = deref(entries)
    step, nothing = word('fold_step'), word('nothing_folded')
    for n, front, folded in reversed(FOLDS[-4:]):
        if n <= len(entries) and all(a is b for a, b in zip(front, entries)):
            break
    else:
        n, folded = 0, nothing
    for e in entries[n:]:
        folded = deep(apply(step, (folded, e)))
    FOLDS.append((len(entries), entries, folded))
    return folded


def over_fronts(name, from_name, begin):
    """A word that goes through the entries from the front: what it made of the last list, and the entries more by itself."""
    made = {}

    def of(entries, session):
        entries, session = deref(entries), deref(session)
        front, value = made.get(session, ((), begin))
        n = len(front)
        if n > len(entries) or not all(a is b for a, b in zip(front, entries)):
            n, value = 0, begin
        if n < len(entries):
            value = deref(apply(resolve(module('Rattle.plain_orders.specs.Entries'), from_name), (value, entries[n:], session)))
            made[session] = (entries, value)
        return value
    antt.over('Entries.' + name, 2, of)


LEFT = antt.Con('Unit')


CONSTANTS = {}


def constant(path, name):
    """A number that a crate's source gives a name to, by the place that it is imported from."""
    _, crate, _, _, *file, _ = path.split('.')
    source = os.path.join(antt.ROOT, crate, 'src', *file) + '.rt'
    if (source, name) not in CONSTANTS:
        found = re.search(r'\bconst %s: \w+ = ([0-9_]+);' % name, open(source, encoding='utf8').read())
        CONSTANTS[(source, name)] = int(found.group(1).replace('_', ''))
    return CONSTANTS[(source, name)]


def with_constants():
    before = antt.resolve0

    def resolve0(mod, name):
        path, its = mod.imp.get(name, ('', ''))
        return constant(path, its) if path.endswith('.TheConstants') else before(mod, name)
    antt.resolve0 = resolve0


def answered_in_python():
    """The true choices and what is an existential, answered here."""
    with_constants()
    antt.built('digits_of', 2)(lambda base, n: tuple(map(int, str(n))) if n else ())
    antt.over('Ordered.KeyMay', 1, lambda key: LEFT)
    antt.over('Key.IsKey', 1, lambda key: LEFT)
    antt.over('Key.IsSub', 1, lambda sub: LEFT)
    antt.over('Sites.IsSite', 1, lambda site: LEFT)
    antt.over('Limits.NextMay', 2, lambda parent, sub: LEFT)
    antt.over('Blocks.IsBlockOf', 2, is_block_of)
    antt.over('Downs.IsNoRun', 1, lambda block: Prop('py', lambda: run_of(block) is None))
    antt.over('Answers.IsSubIn', 3, is_sub_in)
    antt.over('Ups.IsUpFrame', 1, lambda frame: LEFT)
    antt.over('Downs.IsDownFrame', 1, lambda frame: LEFT)
    antt.over('CoresState.plain', 1, plain_of)
    antt.over('Windows.in_bytes', 2, lambda body, w: Rec({'acked': w.f['acked'], 'waiting': ((),) * len(w.f['waiting']), 'taken': w.f['taken']}))
    antt.HINT[('TakesFetch', 'run')] = whole_run
    antt.over('Fold.fold', 1, fold_on)
    over_fronts('count', 'count_from', 0)
    over_fronts('live', 'live_from', False)


def whole_run(env):
    """A Fetch is answered with the whole space: all data fits one block in the worked rows that run here."""
    state = deref(env['b']).f['state']
    pairs = deref(apply(word('fold'), (state.f['order'],))).f['pairs']
    whole = Rec({'span': Rec({'lo': (), 'hi': (0xFF,)}), 'pairs': tuple(Rec({'key': deref(p)[0], 'value': deref(p)[1]}) for p in deref(pairs))})
    if len(block_bytes(whole)) <= 8192:
        return whole
    return around(env['key'], whole)


def around(key, whole):
    """Else as many pairs around the key as fit, the span reaching to the pairs left out."""
    key, pairs = deref(key), whole.f['pairs']
    at = sum(1 for p in pairs if p.f['key'] <= key)
    first = last = at
    def made(a, b):
        lo = pairs[a].f['key'] if a else ()
        hi = pairs[b].f['key'] if b < len(pairs) else (0xFF,)
        return Rec({'span': Rec({'lo': lo, 'hi': hi}), 'pairs': pairs[a:b]})
    first = max(at - 1, 0)
    last = max(at, first)
    best = made(first, last)
    while first and len(block_bytes(made(first - 1, last))) <= 8192:
        first -= 1
    while last < len(pairs) and len(block_bytes(made(first, last + 1))) <= 8192:
        last += 1
    return made(first, last) if best else best


def by_the_reasons(layout):
    """A command that isn't refused waits with the first of its reasons that holds, and is over where none does."""
    def check(cluster, move, outs, acts):
        if move.n != 'Step':
            return
        job, now, line, command = move.a
        c = cluster.before.f
        a, j = c['apps'][layout.f['job_apps'][job]], c['jobs'][job]
        work = deref(apply(word('work_of'), (a, j, now, line)))
        if deref(apply(word('refusal_of'), (command, a, j, work.f['at']))).n == 'None':
            why = deref(apply(word('why_of'), (command, now, work)))
            if not solve(apply(word('WaitsFor'), (why, outs.f['answer'].a[0]))):
                raise AssertionError('move %d %r waits for %r and answers %r' % (cluster.count, move, why, outs.f['answer']))
            undo(0)
    return check


LOOKS = [0, 0]


def by_the_looks(layout):
    """A get that may be answered from what is shown has the very answer and act that its job's step has."""
    def check(cluster, move, outs, acts):
        if move.n != 'Step' or move.a[3].n != 'Get':
            return
        job, now, line, command = move.a
        look = Con('Looked', (job, line, command))
        allowed = solve(apply(word('Allowed'), (cluster.before, look)))
        undo(0)
        LOOKS[1] += 1
        if not allowed:
            return
        LOOKS[0] += 1
        mine, written, new = Var('outs'), Var('acts'), Var('new')
        if not solve(apply(word('CoresMade'), (cluster.before, look, mine, written, new))):
            raise AssertionError('a look that may be made makes nothing')
        mine, written = deep(mine), deep(written)
        undo(0)
        for act in written:
            if not solve(apply(word('MayCome'), (layout, cluster.plain_before, act))):
                raise AssertionError('move %d: the act of a look may not come: %r' % (cluster.count, act))
            undo(0)
        if outs.f['answer'].a[0].n == 'Waiting' and outs.f['answer'].a[0].a[0].n == 'State':
            return          # a look may read while the connection isn't Normal
        if not (antt.eqv(mine.f['answer'], outs.f['answer']) and antt.eqv(written, acts)):
            raise AssertionError('move %d: the look answers %r %r and the step %r %r' % (cluster.count, mine.f['answer'], written, outs.f['answer'], acts))
        undo(0)
    return check


ACCOUNTS = [0, 0]


def by_the_account(layout):
    """All that is awaited has its cause at hand; where nothing is undelivered or unsaved, only what stays keeps a living end waiting."""
    account, reached, awaited = 'Rattle.cluster_runs.specs.Accounted', 'Rattle.cluster_runs.specs.Reached', 'Rattle.cluster_runs.specs.Awaited'

    def of(path, name, *args):
        return deref(apply(resolve(module(path), name), args))

    def check(cluster, move, outs, acts):
        c = cluster.state
        ACCOUNTS[0] += 1
        if of(account, 'is_accounted', c) is not True:
            raise AssertionError('move %d %r: not accounted' % (cluster.count, move))
        if of(account, 'is_quiet', c):
            ACCOUNTS[1] += 1
            for app in range(layout.f['apps']):
                for d in range(layout.f['servers']):
                    if c.f['dead'][app]:
                        continue
                    e = of(reached, 'the_end', c, app, d)
                    for x in of(awaited, 'awaited_at', e):
                        if not of(account, 'may_stay', c, d, e, x) or not of(account, 'stays', c, d, e, x):
                            raise AssertionError('move %d %r: quiet, and %r is awaited' % (cluster.count, move, x))
                    recovers = of(account, 'is_recovering', c.f['nodes'][d])
                    if not recovers and of(account, 'is_in_recovery', e.f['link']):
                        raise AssertionError('move %d %r: quiet, and in recovery' % (cluster.count, move))
    return check


class Refused(Exception):
    pass


class Cluster:
    """The whole cluster, one move after another."""
    def __init__(self, layout, ask_plain=True):
        self.layout, self.ask_plain = layout, ask_plain
        self.state = deref(apply(word('start'), (layout,)))
        self.plain = word('start', 'plain_start')
        self.count = 0
        self.log, self.checks = [], []

    def move(self, move):
        """Makes an allowed move: what it answers and puts, and its acts."""
        undo(0)
        if not solve(apply(word('Allowed'), (self.state, move))):
            undo(0)
            raise Refused('move %d %r is not allowed' % (self.count, move))
        undo(0)
        outs, acts, new = Var('outs'), Var('acts'), Var('new')
        if not solve(apply(word('CoresMade'), (self.state, move, outs, acts, new))):
            raise Refused('move %d %r makes nothing' % (self.count, move))
        outs, acts, new = deep(outs), deep(acts), deep(new)
        undo(0)
        self.before, self.plain_before = self.state, self.plain
        if self.ask_plain:
            self.asks(acts)
        self.state, self.count = new, self.count + 1
        self.log.append((move, outs, acts))
        for check in self.checks:
            check(self, move, outs, acts)
        return outs, acts

    def asks(self, acts):
        """Each act may come on the plain machine, one after another."""
        plain = self.plain
        for act in acts:
            if not solve(apply(word('MayCome'), (self.layout, plain, act))):
                raise Refused('act %r may not come at move %d' % (act, self.count))
            undo(0)
            plain = deref(apply(word('after'), (self.layout, plain, act)))
        self.plain = plain


DEEP = {}


def deep(v):
    """A value without unknowns that were bound; what was made so once is so."""
    v = deref(v)
    if not isinstance(v, (Rec, Con, tuple)) or v == ():
        return v
    if DEEP.get(id(v)) is v:
        return v
    made = deeper(v)
    DEEP[id(made)] = made
    return made


def deeper(v):
    if isinstance(v, Rec):
        fields = {k: deep(x) for k, x in v.f.items()}
        return v if all(fields[k] is v.f[k] for k in fields) else Rec(fields)
    if isinstance(v, Con):
        args = tuple(map(deep, v.a))
        return v if all(x is y for x, y in zip(args, v.a)) else Con(v.n, args)
    if isinstance(v, tuple):
        parts = tuple(map(deep, v))
        return v if all(x is y for x, y in zip(parts, v)) else parts
    return v
