"""Locks over restarts: what was sent, held, given up or claimed as a round begins, ends or closes a session. The invariant is asked after each move."""
from antt import Con, NONE, some
from cluster import Cluster, Finding
from random_moves import threaded
from scripted import Script
import wire


class Run(Script):
    """Two application servers, each with a session; the job of the first one asked for a lock, and it was granted."""

    def __init__(self, times=(5, 60, 1200, 60)):
        super().__init__([0, 1])
        self.k = Cluster(1, [0, 1], times)
        self.k.courses, self.conns = wire.Courses(), {}
        self.make(Con('Begin', (0, 0, ())))
        for a in (1, 0): self.meet(a, a, self.lock(some(1) if a else NONE))
        self.step(0, 1, self.lock())
        self.take_up(0)
        self.save()

    def lock(self, wait=NONE): return Con('Lock', (self.site(), Con('Exclusive'), wait))

    def make(self, *moves):
        super().make(*moves)
        bad = wire.invariant(self.k)
        if bad: raise Finding('%s after %d moves, by %r' % (bad, self.k.count, moves[-1]))

    def accept(self, a, n=None):
        super().accept(a, n)
        self.conns[a] = self.conn

    def take_up(self, a): self.up(a, self.conns[a])

    def tick(self, now, *ends):
        self.make(Con('Tick', (now,)))
        for x in ends: x(Con('Tick'))

    def holds(self):
        """The Grant is taken, and given to its job."""
        self.down(0)
        self.step(0, 1, self.lock())

    def returns(self, *apps):
        """The data server starts again with all entries; each of these takes its Welcome of the new epoch."""
        self.again(len(self.k.c.f['orders'][0].a[0]))
        for a in apps:
            self.redial(a)
            self.accept(a)
        self.save()
        for a in apps: self.down(a)

    def all_taken(self, *apps):
        for a in apps:
            while self.dial(a)['up']: self.take_up(a)
        self.save()
        for a in apps:
            while self.dial(a)['down']: self.down(a)

    def asks(self):
        """The other job asks for the same lock, and waits."""
        self.step(1, 1, self.lock(some(1)))
        self.take_up(1)

    def waits(self):
        """It does, and gives it up."""
        self.asks()
        self.tick(9)
        self.step(1, 1, self.lock(some(1)))


def sent(s):
    s.returns(0, 1)
    s.all_taken(0, 1)
    s.all_taken(0)


def taken(s):
    s.down(0)
    sent(s)


def held(s):
    s.holds()
    s.returns(0, 1)
    s.all_taken(0, 1)


def closed_before_its_claim(s):
    s.holds()
    s.returns(0, 1)
    s.tick(60, s.server)
    s.all_taken(0, 1)


def closed_behind_its_claim(s):
    s.holds()
    s.returns(0, 1)
    s.take_up(0)
    s.tick(60, s.server)
    s.all_taken(0, 1)


def lost_behind_its_claim(s):
    s.holds()
    s.returns(0, 1)
    s.take_up(0)
    s.app(0, Con('Broken', (0,)))
    s.tick(30, lambda x: s.app(0, x))
    s.step(0, 3, s.lock())
    s.step(0, 4, s.lock())
    s.app(0, Con('Connected', (0,)))
    s.accept(0)
    s.save()
    s.all_taken(1)


def given_up_waiting(s):
    s.waits()
    s.take_up(1)
    s.all_taken(0, 1)


def closed_asking(s):
    s.asks()
    s.server(Con('Broken', (s.conns[1],)))
    s.tick(80, s.server)
    s.save()


def closed_waiting(s):
    s.waits()
    s.server(Con('Broken', (s.conns[1],)))
    s.tick(80, s.server)
    s.save()


def given_up_as_it_is_freed(s):
    s.holds()
    s.waits()
    s.step(0, 5, Con('Unlock', (s.site(), Con('Exclusive'), True)))
    s.take_up(0)
    s.take_up(1)
    s.save()


def given_up_twice(s):
    s.holds()
    s.waits()
    s.step(1, 2, s.lock(some(1)))
    s.tick(20)
    s.step(1, 2, s.lock(some(1)))
    s.step(0, 5, Con('Unlock', (s.site(), Con('Exclusive'), True)))
    s.take_up(0)
    for _ in range(3): s.take_up(1)
    s.save()


def freed_and_cut(s):
    s.holds()
    kept = len(s.k.c.f['orders'][0].a[0])
    s.step(0, 5, Con('Set', (s.site(), (53,))))
    s.step(0, 6, Con('Unlock', (s.site(), Con('Exclusive'), True)))
    s.take_up(0)
    s.take_up(0)
    s.again(kept)
    for a in (0, 1):
        s.redial(a)
        s.accept(a)
    s.save()
    s.all_taken(0, 1)


SCRIPTS = [sent, taken, held, closed_before_its_claim, closed_behind_its_claim, given_up_waiting, closed_asking, closed_waiting, given_up_as_it_is_freed,
           given_up_twice, freed_and_cut]


def main():
    for f in SCRIPTS + [lost_behind_its_claim]:
        try:
            s = Run((5, 60, 20, 100)) if f is lost_behind_its_claim else Run()
            f(s)
            print('%s: nothing noticed in %d moves' % (f.__name__, s.k.count), flush=True)
        except Finding as e: print('%s: NOTICED: %s' % (f.__name__, e), flush=True)


if __name__ == '__main__': threaded(main)
