"""The parts of the invariant that concern orders and pairs of ends, asked of the machine at each state of a row."""
import antt
from antt import Con, Prop, apply, deref, eqv, module, resolve, solve, undo
from rows_cluster import deep
from rows_machine import Machine, with_machine

PARTS = ('order', 'ends', 'dials', 'link', 'coherence', 'fronts')
NAMES = [9]
was_ev = antt.ev


def binder(e):
    """The names that a statement speaks of for all numbers."""
    if e[0] == 'bind':
        return e[1] if e[2] == ('id', 'ℕ') else None
    return None


def ev(mod, env, e):
    """All numbers are those below a bound."""
    if e[0] == 'op' and e[1] == '→':
        names = binder(e[2])
        if names:
            def ask(env, names):
                if not names:
                    return solve(antt.ev(mod, env, e[3]))
                for x in range(NAMES[0]):
                    n = len(antt.TRAIL)
                    if not ask({**env, names[0]: x}, names[1:]):
                        return False
                    undo(n)
                return True
            return Prop('py', lambda: ask(env, names))
    return was_ev(mod, env, e)


was_match = antt.match


def match(mod, p, v, env):
    """A single capital letter is a name for any value."""
    if p[0] == 'id' and len(p[1]) == 1 and p[1].isupper():
        env[p[1]] = v
        return True
    return was_match(mod, p, v, env)


def is_front(xs, ys):
    return Prop('py', lambda: len(deref(xs)) <= len(deref(ys)) and all(eqv(deep(a), deep(b)) for a, b in zip(deref(xs), deref(ys))))


def with_invariant():
    antt.ev, antt.match = ev, match
    antt.HINT[('DownWay', 'its')] = lambda env: split(env, False)
    antt.HINT[('DownWay', 'ends')] = lambda env: split(env, True)
    antt.TYPES |= {'Connection', 'Lane', 'Place', 'Mark', 'FirstTaken', 'Linked', 'Entry'}
    antt.over('Words.IsFront', 2, is_front)
    antt.built('All', 2)(lambda f, xs: Prop('py', lambda: all(solve(apply(f, (x,))) for x in xs)))


def split(env, after):
    """The frames of a session until its Reset, and those from there on."""
    left = deep(env['left'])
    n = next((i for i, f in enumerate(left) if f.f['message'].n == 'Reset'), len(left))
    return left[n:] if after else left[:n]


class InvariantCheck:
    def __init__(self, layout):
        with_machine()
        with_invariant()
        self.layout, self.machine, self.asked = layout, Machine(layout), 0

    def __call__(self, cluster, move, outs, acts):
        problem = self.machine.move(move, outs, acts)
        if problem:
            raise AssertionError(problem)
        holds = resolve(module('Rattle.cluster_invariant.specs.Holds'), 'SiteHolds')
        for d in range(self.layout.f['servers']):
            v = deref(apply(cluster.plain.f['server_at'], (d,)))
            x = deref(apply(self.machine.m.f['site_at'], (d,)))
            NAMES[0] = max(len(deep(v.f['order'])) + 2, 6)
            p = apply(holds, (self.layout, d, self.machine.m.f['is_dead_at'], v, x))
            mod, _, env, fields = p.x
            for name, e in fields:
                self.asked += 1
                if not solve(antt.ev(mod, env, e)):
                    undo(0)
                    raise AssertionError('move %d %r: the invariant of %s does not hold: %s' % (cluster.count, move, d, self.where(antt.ev(mod, env, e), name)))
                undo(0)

    def where(self, p, path):
        """The innermost field that fails."""
        p = deref(p)
        if isinstance(p, Prop) and p.k == 'rec':
            mod, _, env, fields = p.x
            env = dict(env)
            for name, e in fields:
                if antt.is_type(mod, e):
                    env[name] = antt.Var(name)
                    continue
                if not solve(antt.ev(mod, env, e)):
                    return self.where(antt.ev(mod, env, e), path + '.' + name)
        return path

    def at_end(self, cluster):
        pass
