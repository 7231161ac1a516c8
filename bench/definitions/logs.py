"""Each node's own log beside the run: a move is one of its node's log, which makes of the node what the lists have of it."""
import antt
from antt import Con, Rec, Var, deref, solve, undo, whole, HINT
from cluster import Finding, of, state_after, ap

SHOWN = [None]
HINT[('InputLogged', 'shown')] = lambda env: SHOWN[0]


class Nodes:
    def __init__(self, k):
        self.k = k
        self.apps = {a: of('Logs', 'new_app_node')(k.l, a) for a in range(k.l.f['apps'])}
        self.servers = {d: of('Logs', 'new_data_node') for d in range(k.l.f['servers'])}

    def add(self, move, outs, acts):
        """What is wrong with the move as one of its node's log, if something is."""
        k, l, c = self.k, self.k.l, self.k.c.f
        if move.n == 'Tick': return
        y = Var('y')
        at_app = move.n in ('Step', 'Looked', 'App', 'Die')
        i = l.f['job_apps'][move.a[0]] if move.n in ('Step', 'Looked') else move.a[0]
        if at_app: SHOWN[0] = c['shown'][i]
        del antt.FAILS[:]
        x = self.apps[i] if at_app else self.servers[i]
        kept = Var('acts')
        logged = Rec({'move': move, 'outs': outs, 'acts': kept, 'place': self.place(move, x.f) if move.n == 'Looked' else 0})
        ok = solve(of('Logs', 'AppLogs' if at_app else 'DataLogs')(l, i, x, move, logged, y))
        y, kept = whole(y), whole(kept)
        undo()
        if not ok: return 'the log: %s' % '; '.join(antt.FAILS[:6])
        f = y.f
        if move.n in ('Begin', 'Halt', 'Die'): acts = ()
        if not (kept if at_app else of('Steps', 'raised')(x.f['synced'], kept)) == acts: return 'the log has other acts: %r' % (kept,)
        if at_app:
            self.apps[i] = y
            same = {'core': f['core'] == c['apps'][i], 'shown': f['published'][-1] == c['shown'][i], 'now': f['now'] == c['app_nows'][i], 'is_dead': f['is_dead'] == c['dead'][i]}
            for j, a in enumerate(l.f['job_apps']):
                if a == i: same['job %d' % j] = f['jobs'][j] == c['jobs'][j] and f['begun'][j] == c['begun'][j] and f['views'][j] == c['views'][j]
        else:
            self.servers[i] = y
            taken = tuple(Rec({'conn': x.f['conn'], 'left': x.f['left']}) for x in c['accepted'] if x.f['server'] == i)
            same = {'core': f['core'] == c['nodes'][i], 'order': f['order'] == c['orders'][i], 'now': f['now'] == c['server_nows'][i], 'taken': f['taken'] == taken,
                    'synced': f['synced'] == ap(state_after(l, c['trail']).f['server_at'], i).f['synced']}
        wrong = [n for n, ok in same.items() if not ok]
        return 'the log makes another %s' % ', '.join(wrong) if wrong else None

    def place(self, move, x):
        """The oldest place at which a look may have read what it did."""
        job, d = move.a[0], move.a[2].a[0].f['server']
        old = next(p for p in range(x['places'][job], len(x['published'])) if x['published'][p][d] == x['published'][-1][d])
        self.old += old < len(x['published']) - 1
        return old
    old = 0
