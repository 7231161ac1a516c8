"""Moves that show wrong rules which random moves seldom reach: `scripted.py NAME`, over the definitions at `ANTT_ROOT`; with the true rules each runs through."""
import sys
from antt import Con, NONE, Rec, some
from cluster import Cluster, Finding, key_of
from random_moves import threaded
import checks
import wire


class Script:
    def __init__(self, job_apps):
        self.k = Cluster(1, job_apps, (5, 60, 1200, 60))
        self.k.courses = wire.Courses()
        self.conn = 0

    def make(self, *moves):
        k = self.k
        for m in moves:
            if not k.allowed(m): raise Finding('not allowed: %r' % (m,))
            k.make(m)
            bad = wire.accounted(k) or wire.holds(k) or (sys.argv[-1] == 'checks' and checks.all_checks(k))
            if bad: raise Finding('%s after %d moves, by %r' % (bad, k.count, m))

    def site(self): return Rec({'server': 0, 'node': Rec({'name': (120,), 'subs': ()}), 'key': key_of('x', ())})
    def app(self, a, x): self.make(Con('App', (a, self.k.c.f['clock'], x)))
    def server(self, x): self.make(Con('Server', (0, self.k.c.f['clock'], x)))
    def step(self, j, line, command): self.make(Con('Step', (j, self.k.c.f['clock'], line, command)))
    def dial(self, a, n=None): return [x.f for x in self.k.c.f['dials'] if x.f['app'] == a and n in (None, x.f['number'])][-1]
    def save(self): self.server(Con('Saved', (len(self.k.c.f['nodes'][0].a[0].f['order']),)))
    def up(self, a, conn, n=None): self.server(Con('Frame', (conn, self.dial(a, n)['up'][0])))
    def down(self, a): self.app(a, Con('Frame', (0, self.dial(a)['down'][0])))

    def accept(self, a, n=None):
        """The data server accepts a connection and takes the first frame of a dial on it."""
        self.conn += 1
        self.server(Con('Connected', (self.conn,)))
        self.up(a, self.conn, n)

    def again(self, kept):
        """The data server starts again with so many entries."""
        self.make(Con('Halt', (0,)))
        self.make(Con('Begin', (0, self.k.c.f['clock'], self.k.c.f['orders'][0].a[0][:kept])))

    def redial(self, a):
        for x in ('Broken', 'Join', 'Connected'): self.app(a, Con(x, (0,)))

    def meet(self, a, j, command):
        self.step(j, 1, command)
        self.app(a, Con('Connected', (0,)))
        self.accept(a)
        self.save()
        self.down(a)


def epoch():
    """An Epoch that no save reached is told, and its number comes again."""
    s = Script([0])
    s.make(Con('Begin', (0, 0, ())))
    s.meet(0, 0, Con('Sync', (0,)))
    for _ in range(2):
        s.again(2)
        s.redial(0)
        s.accept(0)
        if s.dial(0)['down']: s.down(0)
    while s.dial(0)['up']: s.up(0, s.conn)


def grant():
    """A Grant that no job was given stands over an epoch."""
    s = Script([0])
    s.make(Con('Begin', (0, 0, ())))
    lock = Con('Lock', (s.site(), Con('Exclusive'), NONE))
    s.meet(0, 0, lock)
    s.step(0, 1, lock)
    s.up(0, s.conn)
    s.down(0)
    s.again(2)
    s.redial(0)
    s.accept(0)
    s.save()
    s.down(0)
    s.up(0, s.conn)
    s.down(0)
    s.step(0, 1, lock)


def dial():
    """A Recover of an older dial comes behind the Welcome of a newer one."""
    s = Script([0])
    s.make(Con('Begin', (0, 0, ())))
    change = Con('Set', (s.site(), (53,)))
    s.meet(0, 0, change)
    s.again(2)
    s.redial(0)
    s.redial(0)
    s.accept(0)
    s.save()
    s.down(0)
    s.up(0, s.conn)
    s.down(0)
    s.step(0, 1, change)
    s.up(0, s.conn)
    s.accept(0, 2)


def cancel():
    """A Cancel crosses its Grant."""
    s = Script([0])
    s.make(Con('Begin', (0, 0, ())))
    lock = Con('Lock', (s.site(), Con('Exclusive'), some(1)))
    s.meet(0, 0, lock)
    s.step(0, 1, lock)
    s.up(0, s.conn)
    s.make(Con('Tick', (9,)))
    s.step(0, 1, lock)
    s.up(0, s.conn)


def run():
    globals()[sys.argv[1]]()
    print('nothing noticed')


def main():
    try: run()
    except Finding as e: print('NOTICED: %s' % e)


if __name__ == '__main__': threaded(main)
