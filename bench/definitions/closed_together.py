"""Two sessions closed by one tick, the first of which rolls back what the second has a run of: a Drop to one that closes in the same step."""
from antt import Con, Rec
from cluster import Cluster, Finding, key_of
from random_moves import threaded
import wire


def run():
    k = Cluster(1, [0, 1], (5, 60, 1200, 60))
    k.courses = wire.Courses()

    def make(*moves):
        for m in moves:
            if not k.allowed(m): raise Finding('not allowed: %r' % (m,))
            k.make(m)
            bad = wire.accounted(k) or wire.invariant(k) or wire.holds(k)
            if bad: raise Finding(bad)
    now = lambda: k.c.f['clock']
    app, server = lambda a, x: Con('App', (a, now(), x)), lambda x: Con('Server', (0, now(), x))
    dial = lambda a: next(x.f for x in k.c.f['dials'] if x.f['app'] == a)
    up = lambda a: server(Con('Frame', (a + 1, dial(a)['up'][0])))
    down = lambda a: app(a, Con('Frame', (0, dial(a)['down'][0])))
    site = Rec({'server': 0, 'node': Rec({'name': (120,), 'subs': ()}), 'key': key_of('x', ())})
    step = lambda j, line, c: Con('Step', (j, now(), line, c))
    change, get = Con('Set', (site, (53,))), Con('Get', (site,))
    make(Con('Begin', (0, 0, ())), step(0, 1, Con('Start')))
    for a, line, command in ((0, 2, change), (1, 1, get)):
        make(step(a, line, command), app(a, Con('Connected', (0,))), server(Con('Connected', (a + 1,))))
        make(up(a))
        make(server(Con('Saved', (len(k.c.f['nodes'][0].a[0].f['order']),))))
        make(down(a))
        make(step(a, line, command))
        make(up(a))
    make(server(Con('Broken', (1,))), server(Con('Broken', (2,))), Con('Tick', (60,)))
    make(server(Con('Tick')))
    print([a for a in k.c.f['trail'] if a.n == 'Shut'])
    print('put to the second:', wire.lane(k.m, 0, 4, 0).f['down'])


if __name__ == '__main__': threaded(run)
