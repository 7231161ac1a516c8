"""One run of the cluster by its definitions: each move is asked for, made on the lists and on the machine, and both are compared."""
import random
import antt
from antt import Con, Rec, Var, Fun, Prop, Table, NONE, UNIT, some, ap, deref, solve, undo, whole, word, over, unify

# where the definitions stand
AT = {
    'Moves': 'Rattle.cluster_runs.specs.Moves',
    'CoresState': 'Rattle.cluster_runs.specs.CoresState',
    'Steps': 'Rattle.cluster_runs.specs.Steps',
    'Machine': 'Rattle.cluster_runs.specs.Machine',
    'Goes': 'Rattle.cluster_runs.specs.Goes',
    'Mirrors': 'Rattle.cluster_runs.specs.Mirrors',
    'Accounted': 'Rattle.cluster_runs.specs.Accounted',
    'Awaited': 'Rattle.cluster_runs.specs.Awaited',
    'Holds': 'Rattle.cluster_invariant.specs.Holds',
    'LocksHold': 'Rattle.cluster_promises.specs.Locks',
    'Items': 'Rattle.cluster_promises.specs.Items',
    'Answers': 'Rattle.cluster_promises.specs.Answers',
    'Jobs': 'Rattle.cluster_promises.specs.Jobs',
    'Logs': 'Rattle.cluster_runs.specs.Logs',
    'Reached': 'Rattle.cluster_runs.specs.Reached',
    'Wire': 'Rattle.cluster_runs.specs.Wire',
    'WireEpochs': 'Rattle.cluster_runs.specs.WireEpochs',
    'WireDrops': 'Rattle.cluster_runs.specs.WireDrops',
    'WireReads': 'Rattle.cluster_runs.specs.WireReads',
    'Written': 'Rattle.cluster_runs.specs.Written',
    'Carried': 'Rattle.cluster_runs.specs.Carried',
    'Sent': 'Rattle.cluster_runs.specs.Sent',
    'Views': 'Rattle.cluster_runs.specs.Views',
    'Looks': 'Rattle.app_rules.specs.Looks',
    'Step': 'Rattle.plain_runs.specs.Step',
    'Plain': 'Rattle.plain_runs.specs.Plain',
    'Key': 'Rattle.subscript_keys.specs.Key',
    'Span': 'Rattle.subscript_keys.specs.Span',
    'Fold': 'Rattle.plain_orders.specs.Fold',
    'Entries': 'Rattle.plain_orders.specs.Entries',
    'Sessions': 'Rattle.plain_orders.specs.Sessions',
    'Runs': 'Rattle.end_words.specs.Runs',
    'Places': 'Rattle.data_rules.specs.Places',
    'PlainHolds': 'Rattle.plain_runs.specs.Holds',
}
WORDS = {}


def of(file, name):
    if (file, name) not in WORDS: WORDS[file, name] = word(AT[file], name)
    return WORDS[file, name]


def ask(p):
    """Whether a proposition holds; what it bound is taken back."""
    n = len(antt.TRAIL)
    del antt.FAILS[:]
    ok = solve(p)
    undo(n)
    return ok


# what is answered here

def number(n): return Con('Num', (Rec({'digits': n, 'exponent': 1, 'negative': False}),))
def text(s): return Con('Text', (tuple(s.encode()),))


SUBS = [number(1), number(2), number(3), text('a'), text('b')]
NODES = [('x', ()), ('x', (0,)), ('x', (1,)), ('x', (1, 3)), ('y', ()), ('x', (3,))]


def key_of(name, subs):
    key = tuple(name.encode()) + (0,)
    for s in subs: key += of('Key', 'sub_bytes')(SUBS[s])
    return key


def is_sub_in(parent, key, found):
    parent, key = deref(parent), deref(key)

    def it():
        if key.n == 'None': return unify(found, NONE)
        k = deref(key.a[0])
        for s in SUBS:
            front = parent + of('Key', 'sub_bytes')(s)
            if k[:len(front)] == front: return unify(found, some(s))
        return False
    return Prop('py', it)


CHOICE = [0]
PAST_ALL = (255,)


def chosen_run(env):
    """Some run that covers the key, the same for the lists and for the machine."""
    key, b = deref(env['key']), deref(env['b'])
    draw = random.Random(CHOICE[0])
    pairs = of('Fold', 'fold')(deref(b.f['state']).f['order']).f['pairs']
    keys = [k for k, _ in pairs] + [key_of(n, s) for n, s in NODES]
    los = [k for k in keys if k <= key] + [(), key, key[:2]]
    his = [k for k in keys if k > key] + [PAST_ALL, key + (0,), of('Span', 'span_hi')(key), of('Span', 'span_hi')(key[:2])]
    lo, hi = draw.choice(los), draw.choice([h for h in his if h > key])
    return Rec({'span': Rec({'lo': lo, 'hi': hi}), 'pairs': tuple(Rec({'key': k, 'value': v}) for k, v in pairs if lo <= k < hi)})


def put(f, k, x):
    """A function changed at one place, as a table."""
    f, k, x = deref(f), deref(k), whole(x)
    if f.__class__ is Table: return Table({**f.at, k: x}, f.rest)
    return Table({k: x}, f)


STATES = {}


def state_after(l, trail):
    """The plain machine after a trail, kept by its last act."""
    trail = deref(trail)
    if not trail: return of('Plain', 'start')
    i = len(trail)
    while i and (i, id(trail[i-1])) not in STATES: i -= 1
    p = STATES[i, id(trail[i-1])][0] if i else of('Plain', 'start')
    while i < len(trail):
        p = flat_plain(l, of('Step', 'after')(l, p, trail[i]))
        i += 1
        STATES[i, id(trail[i-1])] = (p, trail[i-1])
    return p


def flat(f, domain, first):
    """A function as a table over its numbers; elsewhere it is what it was at first."""
    f = deref(f)
    if f.__class__ is Table and f.rest is first: return f
    return Table({k: whole(ap(f, k)) for k in domain}, first)


def flat_plain(l, p):
    start = of('Plain', 'start')
    s0 = ap(start.f['server_at'], 0)
    apps, jobs, servers = range(l.f['apps'] + 1), range(len(l.f['job_apps']) + 1), range(l.f['servers'] + 1)

    def server(s):
        sessions = range(len(s.f['order']) + 30)
        doms = {'end_at': apps, 'pair_at': apps, 'known_at': jobs, 'session_at': sessions, 'entered_at': sessions}
        if all(s.f[k].__class__ is Table and s.f[k].rest is s0.f[k] for k in doms): return s
        return Rec({**s.f, **{k: flat(s.f[k], d, s0.f[k]) for k, d in doms.items()}})
    return Rec({**p.f, 'died_at': flat(p.f['died_at'], apps, start.f['died_at']), 'job_at': flat(p.f['job_at'], jobs, start.f['job_at']),
                'server_at': Table({d: server(ap(p.f['server_at'], d)) for d in servers}, start.f['server_at'])})


def written_while(l, trail, test):
    return tuple(a for i, a in enumerate(trail) if deref(ap(test, state_after(l, trail[:i]))))


def answers():
    """What the definitions leave open, or ask of bytes and limits, is answered in Python."""
    ok = lambda *a: UNIT
    for name, n in (('Ordered.KeyMay', 1), ('Key.IsKey', 1), ('Key.IsWithinLimit', 1), ('Limits.CommandMay', 1), ('Ups.IsUpFrame', 1), ('Downs.IsDownFrame', 1)): over(name, n, ok)
    over('Answers.IsSubIn', 3, is_sub_in)
    over('Blocks.IsBlockOf', 2, lambda run, block: Prop('py', lambda: unify(run, deref(block)[0])))
    over('Downs.IsNoRun', 1, lambda block: Con('⊥'))
    over('Puts.body_of', 1, lambda m: ())
    over('Works.body_of', 1, lambda m: ())
    over('Opening.all_apps', 0, lambda: (0, 1, 2, 3))
    over('Plain.put', 3, put)
    over('Run.state_after', 2, state_after)
    over('Written.written_while', 3, written_while)
    antt.HINT[('TakesFetch', 'run')] = chosen_run
    antt.HINT[('TakesFetch', 'block')] = lambda env: (deref(env['run']),)
    antt.MEMO.update(['Entries.count', 'Entries.live', 'Entries.live_session', 'Sessions.live_sessions', 'Sessions.app_in', 'Fold.fold', 'Places.epoch_place', 'Entries.last_epoch', 'Opening.live_ends'])


answers()


# a run

class Finding(Exception):
    pass


class Cluster:
    def __init__(self, servers, job_apps, times, seed=0, with_machine=True):
        apps = max(job_apps) + 1
        self.l = Rec({'servers': servers, 'apps': apps, 'job_apps': tuple(job_apps), 'times': Rec(dict(zip(('retry', 'trouble', 'recover', 'round'), times)))})
        STATES.clear()
        antt.forget()
        self.c = of('CoresState', 'start')(self.l)
        self.m = self.m0 = of('Machine', 'begin')(self.l) if with_machine else None
        self.site0 = ap(self.m.f['site_at'], 0) if with_machine else None
        self.seed, self.count, self.moves = seed, 0, []
        self.sessions = {}      # by data server: the numbers that a session had
        self.courses = None     # kept where the wire is asked
        self.kinds = {}
        self.domains()

    def domains(self):
        d = antt.DOMAIN
        l = self.l.f
        d.clear()
        d.update({'server': range(l['servers'] + 1), 'app': range(l['apps'] + 1), 'job': range(len(l['job_apps']) + 1), 'd': range(l['servers'] + 1)})
        dials = [x.f['number'] for x in self.c.f['dials']]
        conns = [x.f['conn'] for x in self.c.f['accepted']]
        d['number'] = range(max(dials + [0]) + 2)
        d['conn'] = range(max(conns + [0]) + 2)

    def allowed(self, move):
        return ask(of('Moves', 'Allowed')(self.c, move))

    def fail(self, what, more=''):
        raise Finding('%s after %d moves %s\n  failing: %s' % (what, self.count, more, antt.FAILS[:6]))

    def make(self, move, mirrors=True):
        """Makes an allowed move."""
        CHOICE[0] = self.seed * 100003 + self.count
        self.move = move
        old, before_m = self.c, self.m
        outs, acts, new = Var('outs'), Var('acts'), Var('new')
        del antt.FAILS[:]
        if not solve(of('Steps', 'CoresMade')(old, move, outs, acts, new)): self.fail('no step of the lists', '\n  %r' % (move,))
        outs, acts, new = whole(outs), whole(acts), whole(new)
        undo()
        if self.m:
            outs2, acts2, new2 = Var('outs'), Var('acts'), Var('new')
            if not solve(of('Goes', 'Goes')(self.m, move, outs2, acts2, new2)): self.fail('no step of the machine', '\n  %r' % (move,))
            if not whole(outs2) == outs: self.fail('outputs differ', '\n  %r' % (move,))
            if not whole(acts2) == acts: self.fail('acts differ', '\n  %r' % (move,))
        self.c = new
        for d, o in enumerate(new.f['orders']):
            if o.n == 'Some':
                for e in o.a[0]:
                    if e.n == 'Opened': self.sessions.setdefault(d, set()).add(e.a[0])
        self.domains()
        if self.m:
            self.m = self.flat(deref(new2))
            undo()
        self.count += 1
        self.moves.append(move)
        p = state_after(self.l, old.f['trail'])
        trail = old.f['trail']
        for a in acts:
            if not ask(of('Step', 'MayCome')(self.l, p, a)): self.fail('act refused', '\n  %r\n  by %r' % (a, move))
            trail = trail + (a,)
            k = a.n + ('' if a.n not in ('Shut', 'Enter', 'Lose', 'Refused', 'Broke') else ' ' + next(x.n for x in reversed(a.a) if x.__class__ is Con))
            if a.n == 'Broke': k = 'Broke ' + a.a[2].n
            if a.n == 'Read': k = 'Read %s %s' % (a.a[4].n, a.a[5].n)
            self.kinds[k] = self.kinds.get(k, 0) + 1
            p = flat_plain(self.l, of('Step', 'after')(self.l, p, a)) if not new.f['trail'][:len(trail)] == trail else state_after(self.l, new.f['trail'][:len(trail)])
        if self.m and mirrors and not ask(of('Mirrors', 'Mirrors')(self.c, self.m)): self.fail('the lists show another machine', '\n  %r' % (move,))
        if self.courses: self.courses.add(self, before_m, old, new, move, outs, acts)
        return outs, acts

    def flat(self, m):
        """The machine with its functions as tables."""
        l, before, start = self.l.f, self.m, self.m0
        jobs, apps = range(len(l['job_apps']) + 1), range(l['apps'] + 1)
        sites = {}
        for d in range(l['servers'] + 1):
            x, y = deref(ap(m.f['site_at'], d)), deref(ap(before.f['site_at'], d))
            sites[d] = y if x is y else self.flat_site(d, x)
        got = {'job_at': jobs, 'begun_at': jobs, 'view_at': jobs, 'app_now_at': apps, 'is_dead_at': apps}
        return Rec({**{k: whole(v) if not isinstance(v, Fun) else v for k, v in m.f.items()}, **{k: flat(m.f[k], dom, start.f[k]) for k, dom in got.items()}, 'site_at': Table(sites, start.f['site_at'])})

    def flat_site(self, d, x):
        first, end0 = self.site0, ap(self.site0.f['end_at'], 0)
        ends = {}
        for a in range(self.l.f['apps'] + 1):
            e = deref(ap(x.f['end_at'], a))
            dial = whole(e.f['state']).f['dial']
            ends[a] = Rec({'state': whole(e.f['state']), 'shown': whole(e.f['shown']), 'told': whole(e.f['told']), 'welcomes': whole(e.f['welcomes']),
                           'connection_at': flat(e.f['connection_at'], range(dial + 3), end0.f['connection_at'])})
        past = deref(x.f['past'])
        sessions, ks = sorted(self.sessions.get(d, ())) + [0], range(past + 2)
        lanes = {(s, k): whole(ap(x.f['lane_at'], s, k)) for s in sessions for k in ks}
        hellos = {(k, a): deref(ap(x.f['hellos_at'], k, a)) for k in ks for a in range(self.l.f['apps'] + 1)}
        no_lane = ap(first.f['lane_at'], 0, 0)
        return Rec({'node': whole(x.f['node']), 'order': whole(x.f['order']), 'past': past, 'now': deref(x.f['now']),
                    'connection_at': flat(x.f['connection_at'], antt.DOMAIN['conn'], first.f['connection_at']), 'end_at': Table(ends, first.f['end_at']),
                    'lane_at': Fun(2, lambda s, k: lanes.get((deref(s), deref(k)), no_lane)), 'hellos_at': Fun(2, lambda k, a: hellos.get((deref(k), deref(a)), 0))})
