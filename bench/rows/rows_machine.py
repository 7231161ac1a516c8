"""The same moves by the machine of the theorem: `Goes` makes each, and the lists must show the machine after it, as `Mirrors` says."""
import antt
from antt import Con, Rec, Var, Fun, NONE, some, apply, deref, module, resolve, solve, undo
from rows_cluster import deep, WHERE, word
from rows_terms import term

WHERE.update({
    'Goes': 'Rattle.cluster_runs.specs.Goes',
    'ShowsInput': 'Rattle.cluster_runs.specs.Goes',
    'begin': 'Rattle.cluster_runs.specs.Machine',
    'end_state': 'Rattle.cluster_runs.specs.Machine',
    'fresh_end': 'Rattle.cluster_runs.specs.Machine',
    'fresh_site': 'Rattle.cluster_runs.specs.Machine',
    'no_lane': 'Rattle.cluster_runs.specs.Sent',
    'dial_of': 'Rattle.cluster_runs.specs.Connections',
    'end_at': 'Rattle.app_rules.specs.Works',
})
was_type = antt.is_type


def is_type(mod, e):
    """A field whose type is a function's is a value too."""
    return was_type(mod, e) or (e[0] == 'op' and e[1] == '→' and e[2][0] == 'id' and e[2][1] == 'ℕ' and is_type(mod, e[3]))


def shown_after(env):
    """What each data server's end shows after the input: the one that `ShowsInput` gives."""
    def of(args):
        server, v = deref(args[0]), Var('shown')
        m, app = env['m'], env['app']
        old = apply(word('end_state'), (m, app, server))
        new = apply(word('end_at'), (env['state'], server))
        site = deref(apply(deref(m).f['site_at'], (server,)))
        was = deref(apply(site.f['end_at'], (app,))).f['shown']
        if not solve(apply(word('ShowsInput'), (server, env['input'], old, new, was, v))):
            raise ValueError('shows nothing')
        return deep(v)
    return Fun(1, of, name='shown')


def with_machine():
    antt.is_type = is_type
    antt.HINT[('AppGoes', 'shown')] = shown_after


def table(values, otherwise, n=1):
    return Fun(n, lambda a: values.get(tuple(map(deref, a)), otherwise), name='table')


class Machine:
    def __init__(self, layout):
        self.layout = layout
        self.servers, self.apps, self.jobs = layout.f['servers'], layout.f['apps'], len(layout.f['job_apps'])
        self.m = deref(apply(word('begin'), (layout,)))
        self.conns = 0

    def move(self, move, outs, acts):
        new = Var('new')
        if not solve(apply(word('Goes'), (self.m, move, outs, acts, new))):
            undo(0)
            return 'Goes makes it not'
        self.m = self.tabulated(deref(new))
        undo(0)
        return None

    def tabulated(self, m):
        f = dict(m.f)
        f['trail'], f['clock'] = deep(f['trail']), deep(f['clock'])
        sites = {(d,): self.site(deref(apply(f['site_at'], (d,)))) for d in range(self.servers)}
        f['site_at'] = table(sites, word('fresh_site'))
        for name, n in (('job_at', self.jobs), ('begun_at', self.jobs), ('view_at', self.jobs), ('app_now_at', self.apps), ('is_dead_at', self.apps)):
            f[name] = self.row(f[name], range(n))
        return Rec(f)

    @staticmethod
    def row(f, keys):
        keys = list(keys)
        other = (max(keys) if keys else 0) + 1000
        return table({(k,): deep(apply(f, (k,))) for k in keys}, deep(apply(f, (other,))))

    def site(self, x):
        f = dict(x.f)
        for name in ('node', 'order', 'past', 'now'):
            f[name] = deep(f[name])
        f['connection_at'] = self.row(f['connection_at'], range(0, 40))
        f['end_at'] = table({(a,): self.end(deref(apply(f['end_at'], (a,)))) for a in range(self.apps)}, word('fresh_end'))
        longest = len(f['order'].a[0]) + 2 if f['order'].n == 'Some' else 1
        lanes = {(s, k): deep(apply(x.f['lane_at'], (s, k))) for s in range(longest) for k in range(f['past'] + 1)}
        f['lane_at'] = table(lanes, word('no_lane'), 2)
        f['hellos_at'] = table({(k, a): deep(apply(x.f['hellos_at'], (k, a))) for k in range(f['past'] + 1) for a in range(self.apps)}, 0, 2)
        return Rec(f)

    def end(self, e):
        f = dict(e.f)
        for name in ('state', 'shown', 'told', 'welcomes'):
            f[name] = deep(f[name])
        f['connection_at'] = self.row(f['connection_at'], range(0, f['state'].f['dial'] + 2))
        return Rec(f)

    def differs(self, c):
        """Where the lists don't show the machine."""
        out, m = [], self.m.f

        def same(what, a, b):
            if term(deep(a)) != term(deep(b)):
                out.append('%s: %s / %s' % (what, term(deep(a))[:200], term(deep(b))[:200]))
        c = c.f
        same('clock', c['clock'], m['clock'])
        same('trail', c['trail'], m['trail'])
        for j in range(self.jobs):
            for mine, its in (('jobs', 'job_at'), ('begun', 'begun_at'), ('views', 'view_at')):
                same('%s[%d]' % (mine, j), c[mine][j], apply(m[its], (j,)))
        for a in range(self.apps):
            same('app_nows[%d]' % a, c['app_nows'][a], apply(m['app_now_at'], (a,)))
            same('dead[%d]' % a, c['dead'][a], apply(m['is_dead_at'], (a,)))
        for d in range(self.servers):
            site = deref(apply(m['site_at'], (d,))).f
            same('nodes[%d]' % d, c['nodes'][d], site['node'])
            same('orders[%d]' % d, c['orders'][d], site['order'])
            same('server_nows[%d]' % d, c['server_nows'][d], site['now'])
            for n in range(0, 40):
                mine = [x for x in c['accepted'] if (x.f['server'], x.f['conn']) == (d, n)]
                its = deref(apply(site['connection_at'], (n,)))
                same('accepted %d %d' % (d, n), some(Rec({'link': mine[0].f['dial'], 'left': mine[0].f['left']})) if mine else NONE, its)
            for a in range(self.apps):
                end = deref(apply(site['end_at'], (a,))).f
                same('ends[%d][%d]' % (a, d), c['apps'][a].f['ends'][d], end['state'])
                same('shown[%d][%d]' % (a, d), c['shown'][a][d], end['shown'])
                for n in range(0, end['state'].f['dial'] + 2):
                    mine = [x for x in c['dials'] if (x.f['app'], x.f['server'], x.f['number']) == (a, d, n)]
                    its = deref(apply(end['connection_at'], (n,)))
                    shows = NONE if its.n == 'None' else some(deep(apply(word('dial_of'), (a, d, n, its.a[0]))))
                    same('dials %d %d %d' % (a, d, n), some(mine[0]) if mine else NONE, shows)
        return out
