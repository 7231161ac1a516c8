"""More than 64 messages taken without a frame back: at the data end by Sets without a save, at the application end by saves of each."""
import sys
from antt import Con, Rec
from cluster import Cluster, Finding, key_of
from random_moves import threaded
import wire


def run():
    k = Cluster(1, [0], (5, 60, 1200, 60))
    k.courses = wire.Courses()

    def make(*moves):
        for m in moves:
            if not k.allowed(m): raise Finding('not allowed: %r' % (m,))
            k.make(m)
            bad = wire.accounted(k) or wire.invariant(k)
            if bad: raise Finding(bad)
    app, server = lambda x: Con('App', (0, 0, x)), lambda x: Con('Server', (0, 0, x))
    up = lambda: server(Con('Frame', (1, k.c.f['dials'][0].f['up'][0])))
    down = lambda: app(Con('Frame', (0, k.c.f['dials'][0].f['down'][0])))
    site = Rec({'server': 0, 'node': Rec({'name': (120,), 'subs': ()}), 'key': key_of('x', ())})
    change = lambda n: Con('Step', (0, 0, n, Con('Set', (site, (53,)))))
    make(Con('Begin', (0, 0, ())), change(1), app(Con('Connected', (0,))), server(Con('Connected', (1,))))
    make(up())
    make(server(Con('Saved', (2,))))
    make(down())
    for n in range(1, 131): make(change(n))
    while k.c.f['dials'][0].f['up']: make(up())
    order = len(k.c.f['nodes'][0].a[0].f['order'])
    for n in range(3, order + 1): make(server(Con('Saved', (n,))))
    while k.c.f['dials'][0].f['down']: make(down())
    for f in (wire.holds, wire.invariant):
        bad = f(k)
        if bad: raise Finding(bad)
    c = k.c.f['dials'][0].f
    x = wire.lane(k.m, 0, 2, 0).f
    print('%d moves; %d acknowledgements by themselves upwards, %d downwards' % (k.count, x['up_bares'], x['down_bares']))
    if not (x['up_bares'] and x['down_bares']): sys.exit('none was put')


if __name__ == '__main__': threaded(run)
