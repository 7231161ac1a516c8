"""Random allowed moves from the start: `random_moves.py SEED RUNS MOVES [SHAPE]`, with everything compared after each.

SHAPE is `servers:apps of the jobs`, as `2:0,0,1,1`. Each run draws its own times and its own habits.
"""
import os
import random
import sys
import threading
import time
import traceback
import antt
from antt import Con, Rec, NONE, some
from cluster import Cluster, Finding, NODES, SUBS, key_of, of
import logs
import wire

INVARIANT = bool(os.environ.get('INVARIANT'))
SHAPES = ['2:0,0,1,1', '2:0,0,1', '2:0,1,1', '1:0', '1:0,1,1', '2:0,0', '3:0,0', '1:0,0,1,2']


class Draw:
    """Draws moves by what the cluster's lists hold; each is asked of `Allowed` before it is made."""

    def __init__(self, seed, shape=None, aim=None):
        self.r = r = random.Random(seed)
        servers, jobs = (shape or r.choice(SHAPES)).split(':')
        times = r.choice([(2, 8, 20, 10), (5, 60, 1200, 60), (3, 6, 9, 4), (1, 20, 12, 25)])
        self.k = Cluster(int(servers), [int(j) for j in jobs.split(',')], times, seed)
        self.times, self.aim = times, aim or {}
        self.weights = {'step': 30, 'look': 8, 'app frame': 40, 'server frame': 40, 'dial': 20, 'accept': 20, 'first': 30, 'save': 5, 'begin': 20, 'halt': r.choice([0.05, 0.15, 0.6]),
                        'die': r.choice([0, 0, 0.05]), 'tick': r.choice([0.3, 1, 2]), 'app tick': 0.7, 'server tick': 0.7, 'app broken': r.choice([0.02, 0.1, 0.5]),
                        'server broken': r.choice([0.02, 0.1, 0.5]), 'join': 0.4, 'noway': r.choice([0.2, 1])}
        if r.random() < 0.4:     # first frames wait long
            for kind in ('accept', 'first'): self.weights[kind] *= 0.1
            self.weights['halt'] *= 2
        self.weights.update(self.aim)
        self.leaning = r.random()       # towards locks or reads or transactions
        self.nodes = r.sample(range(len(NODES)), r.choice([2, 3, 4]))
        self.there = {}     # what a waiting job saw at its last step
        self.conn, self.fails, self.hurry = 0, 0, r.choice([0.05, 0.2, 0.5])

    def site(self):
        n, subs = NODES[self.r.choice(self.nodes)]
        return Rec({'server': self.r.randrange(self.k.l.f['servers']), 'node': Rec({'name': tuple(n.encode()), 'subs': tuple(SUBS[s] for s in subs)}), 'key': key_of(n, subs)})

    def command(self):
        r = self.r
        kinds = {'Set': 10, 'Kill': 3, 'Get': 12, 'Shape': 4, 'Next': 5, 'Incr': 5, 'Lock': 8, 'Unlock': 6, 'Start': 5, 'Commit': 6, 'Rollback': 2, 'Sync': 4}
        for k in self.aim.get('commands', {}): kinds[k] = self.aim['commands'][k]
        if self.leaning < 0.25: kinds.update(Lock=25, Unlock=15)
        elif self.leaning < 0.5: kinds.update(Get=30, Set=15, Next=8)
        elif self.leaning < 0.7: kinds.update(Start=10, Commit=25, Rollback=4, Set=45, Get=5, Lock=3, Unlock=2, Shape=1, Next=1)
        k = r.choices(list(kinds), list(kinds.values()))[0]
        mode = r.choice([Con('Exclusive'), Con('Shared')])
        if k == 'Set': return Con(k, (self.site(), tuple(r.choice(['5', '7', '-3', 'ab', '999999999999999999']).encode())))
        if k in ('Kill', 'Get', 'Shape'): return Con(k, (self.site(),))
        if k == 'Next': return Con(k, (self.site(), r.choice([NONE, some(r.choice(SUBS))])))
        if k == 'Incr': return Con(k, (self.site(), r.choice([1, 2, -4, 5])))
        if k == 'Lock': return Con(k, (self.site(), mode, r.choice([NONE, NONE, some(1), some(4)])))
        if k == 'Unlock':
            held = [(d, h.f) for a in self.k.c.f['apps'] for d, e in enumerate(a.f['ends']) if e.f['session'].n == 'Some' for h in e.f['session'].a[0].f['held']]
            site = self.site()
            if held and r.random() < 0.8:
                d, h = r.choice(held)
                site, mode = Rec({**site.f, 'server': d, 'key': h['key']}), h['mode']
            return Con(k, (site, mode, r.random() < 0.6))
        if k == 'Start' or k == 'Rollback': return Con(k)
        if k == 'Commit': return Con(k, (r.random() < 0.5,))
        return Con(k, (r.randrange(self.k.l.f['servers']),))

    def open_conns(self, d): return [x.f for x in self.k.c.f['accepted'] if x.f['server'] == d and not x.f['left']]

    def now(self): return self.k.c.f['clock']

    def draw(self):
        r, c, l, now = self.r, self.k.c.f, self.k.l.f, self.now()
        kind = r.choices(list(self.weights_now), list(self.weights_now.values()))[0]
        servers, apps = range(l['servers']), range(l['apps'])
        app_in = lambda a, x: Con('App', (a, now, x))
        server_in = lambda d, x: Con('Server', (d, now, x))
        dials = [x.f for x in c['dials']]
        if kind == 'step':
            j = r.randrange(len(l['job_apps']))
            b = c['begun'][j].f
            now_there = (c['apps'][l['job_apps'][j]], now)
            if b['waits'].n == 'Some' and self.there.get(j, (None, None)) == now_there and r.random() < 0.97: return None
            self.there[j] = now_there
            if b['waits'].n == 'Some': return Con('Step', (j, now, b['line'], b['waits'].a[0]))
            return Con('Step', (j, now, b['line'] + r.choice([1, 1, 1, 1, 0, 3]), self.command()))
        if kind == 'look':
            free = [j for j, b in enumerate(c['begun']) if b.f['waits'].n == 'None']
            if not free: return None
            j, site = r.choice(free), self.site()
            if not c['shown'][l['job_apps'][j]][site.f['server']].f['runs']: return None
            return Con('Looked', (j, c['begun'][j].f['line'] + 1, Con('Get', (site,))))
        if kind == 'app frame':
            some_down = [x for x in dials if x['down'] and x['number'] == c['apps'][x['app']].f['ends'][x['server']].f['dial']]
            if not some_down: return None
            x = r.choice(some_down)
            return app_in(x['app'], Con('Frame', (x['server'], x['down'][0])))
        if kind == 'server frame':
            d = r.choice(servers)
            ready = []
            for x in self.open_conns(d):
                if x['dial'].n == 'Some':
                    y = x['dial'].a[0].f
                    ready += [(x, z) for z in dials if z['app'] == y['app'] and z['server'] == d and z['number'] == y['dial'] and z['up']]
            if not ready: return None
            x, z = r.choice(ready)
            return server_in(d, Con('Frame', (x['conn'], z['up'][0])))
        if kind == 'first':
            d = r.choice(servers)
            conns = [x for x in self.open_conns(d) if x['dial'].n == 'None']
            ups = [z for z in dials if z['server'] == d and not z['linked'] and z['up']]
            if not conns or not ups: return None
            newest = [z for z in ups if z['number'] == c['apps'][z['app']].f['ends'][d].f['dial']]
            z = r.choice(newest) if newest and r.random() < 0.75 else r.choice(ups)
            return server_in(d, Con('Frame', (r.choice(conns)['conn'], z['up'][0])))
        if kind == 'accept':
            self.conn += 1
            return server_in(r.choice(servers), Con('Connected', (self.conn,)))
        if kind in ('dial', 'noway'):
            trying = [(a, d) for a in apps for d in servers if c['apps'][a].f['ends'][d].f['line'].n == 'Trying']
            if not trying: return None
            a, d = r.choice(trying)
            if kind == 'dial': return app_in(a, Con('Connected', (d,)))
            self.fails += 1
            return app_in(a, Con('NoWay', (d, self.fails - 1, self.fails)))
        if kind == 'save':
            d = r.choice(servers)
            n = c['nodes'][d]
            if n.n == 'None': return None
            lo, hi = n.a[0].f['synced'], len(n.a[0].f['order'])
            if lo == hi and r.random() < 0.9: return None
            return server_in(d, Con('Saved', (hi if r.random() < 0.6 else r.randint(lo, hi),)))
        if kind == 'begin':
            down = [d for d in servers if c['nodes'][d].n == 'None']
            if not down: return None
            d = r.choice(down)
            o = c['orders'][d]
            if o.n == 'None':
                es = ()
                if r.random() < 0.3:
                    es = (Con('Epoch', (1,)), Con('Opened', (2, 0)), Con('Update', (2, 1, 0, 0, Con('Set', (key_of('x', ()), (57,))))))
                    if r.random() < 0.5: es += (Con('Update', (2, 2, 0, 1, Con('Set', (key_of('x', ()), (56,))))),)
                    if r.random() < 0.3: es += (Con('Closed', (2,)),)
                return Con('Begin', (d, now, es))
            lo, hi = of('CoresState', 'plain_server')(self.k.c, d).f['synced'], len(o.a[0])
            n = hi if r.random() < 0.3 else lo if r.random() < 0.4 else r.randint(min(lo, hi), hi)
            return Con('Begin', (d, now, o.a[0][:n]))
        if kind == 'halt': return Con('Halt', (r.choice(servers),))
        if kind == 'die': return Con('Die', (r.choice(apps),))
        if kind == 'tick':
            retry, trouble, recover, rnd = self.times
            return Con('Tick', (now + (r.choice([trouble, recover, rnd]) if r.random() < self.hurry else r.choice([0, 1, 1, 2, retry])),))
        if kind == 'app tick': return app_in(r.choice(apps), Con('Tick'))
        if kind == 'server tick': return server_in(r.choice(servers), Con('Tick'))
        if kind == 'app broken':
            left = [x for x in dials if x['data_left'] and not x['app_left']]
            if left and r.random() < 0.8:
                x = r.choice(left)
                return app_in(x['app'], Con('Broken', (x['server'],)))
            return app_in(r.choice(apps), Con('Broken', (r.choice(servers),)))
        if kind == 'server broken':
            d = r.choice(servers)
            conns = self.open_conns(d)
            if not conns: return None
            x = r.choice(conns)
            if x['dial'].n == 'None' and r.random() < 0.7: return None
            return server_in(d, Con('Broken', (x['conn'],)))
        if kind == 'join': return app_in(r.choice(apps), Con('Join', (r.choice(servers),)))

    def next(self):
        """The next allowed move."""
        self.weights_now = {k: w for k, w in self.weights.items() if not isinstance(w, dict)}
        left = sum(1 for x in self.k.c.f['dials'] if x.f['data_left'] and not x.f['app_left'])
        if left: self.weights_now['app broken'] += 2
        if any(e.f['link'].n == 'Trouble' and e.f['line'].n == 'Apart' for a in self.k.c.f['apps'] for e in a.f['ends']):
            for kind in ('app tick', 'join', 'tick'): self.weights_now[kind] += 1
        unlinked = [x for x in self.k.c.f['accepted'] if not x.f['left'] and x.f['dial'].n == 'None']
        self.weights_now['accept'] = 1 if unlinked else self.weights_now['accept']
        ups = any(x.f['up'] and not x.f['linked'] for x in self.k.c.f['dials'])
        if not ups: self.weights_now['accept'] *= 0.1
        for _ in range(400):
            m = self.draw()
            if m is not None and self.k.allowed(m): return m
            self.refused += m is not None
        return Con('Tick', (self.now(),))
    refused = 0

    def to_quiet(self, nodes):
        """All is delivered, noticed and saved, as far as it may."""
        k = self.k
        keep = {'app frame': 1, 'server frame': 1, 'first': 1, 'accept': 0.3, 'save': 1, 'app broken': 1}
        for _ in range(400):
            if of('Accounted', 'is_quiet')(k.c):
                self.quiet += 1
                return
            self.weights_now = keep
            m = self.draw()
            lost = [x.f for x in k.c.f['dials'] if x.f['app_left'] and x.f['linked'] and not x.f['data_left']]
            if lost and self.r.random() < 0.3:
                x = self.r.choice(lost)
                conn = [y.f for y in k.c.f['accepted'] if y.f['server'] == x['server'] and not y.f['left'] and y.f['dial'] == some(Rec({'app': x['app'], 'dial': x['number']}))]
                if conn: m = Con('Server', (x['server'], self.now(), Con('Broken', (conn[0]['conn'],))))
            if m is None or not k.allowed(m): continue
            outs, acts = k.make(m)
            bad = nodes.add(m, outs, acts) or wire.accounted(k) or wire.quiet(k)
            if bad: raise Finding('%s\n  by %r' % (bad, m))
    quiet = 0


def one_run(seed, moves, shape=None, aim=None, every=0, check=None):
    """One run; gives its cluster, and what was found, if something was."""
    d = Draw(seed, shape, aim)
    k = d.k
    k.courses = wire.Courses()
    nodes = logs.Nodes(k)
    found = None
    try:
        for i in range(moves):
            m = d.next()
            outs, acts = k.make(m)
            bad = nodes.add(m, outs, acts) or wire.quiet(k)
            if bad: raise Finding('%s\n  by %r' % (bad, m))
            bad = wire.accounted(k)
            if bad: raise Finding('not accounted: %r\n  by %r' % (bad, m))
            bad = INVARIANT and wire.invariant(k)
            if bad: raise Finding('%s\n  by %r' % (bad, m))
            if check:
                bad = check(k)
                if bad: raise Finding('%s\n  by %r' % (bad, m))
            if every and (i + 1) % every == 0:
                bad = wire.holds(k)
                if bad: raise Finding('the wire: %s' % bad)
        bad = wire.holds(k)
        if bad: raise Finding('the wire: %s' % bad)
        d.to_quiet(nodes)
    except Finding as e: found = '%s' % e
    except Exception as e: found = 'error: %s' % traceback.format_exc()[-1500:]
    return d, found


def main():
    seed, runs, moves = int(sys.argv[1]), int(sys.argv[2]), int(sys.argv[3])
    shape = sys.argv[4] if len(sys.argv) > 4 else None
    kinds, move_kinds, total, quiet, began = {}, {}, 0, 0, time.time()
    for s in range(seed, seed + runs):
        d, found = one_run(s, moves, shape, every=100)
        total += d.k.count
        quiet += d.quiet
        for k, n in d.k.kinds.items(): kinds[k] = kinds.get(k, 0) + n
        for m in d.k.moves:
            x = m.n if m.n not in ('App', 'Server', 'Step') else '%s %s' % (m.n, m.a[2].n if m.n != 'Step' else m.a[3].n)
            move_kinds[x] = move_kinds.get(x, 0) + 1
        if found: print('SEED %d: %s\n' % (s, found[:3000]), flush=True)
    print('seeds %d..%d, %d runs, %d moves, %d runs ended quiet, %.0f s' % (seed, seed + runs - 1, runs, total, quiet, time.time() - began))
    print('moves:', ', '.join('%s %d' % kv for kv in sorted(move_kinds.items())))
    print('acts:', ', '.join('%s %d' % kv for kv in sorted(kinds.items())))


def threaded(f):
    threading.stack_size(1 << 29)
    t = threading.Thread(target=f)
    t.start()
    t.join()


if __name__ == '__main__': threaded(main)
