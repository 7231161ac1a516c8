"""Sessions that a round, a break or a death closes, with their connections at each stage, and connections whose first frames come late."""
from antt import Con
from cluster import Finding
from random_moves import threaded
from scripted import Script
import wire


class Run(Script):
    """A session of the first application server, with one item that is synced, and a second application server."""

    def __init__(self):
        super().__init__([0, 1])
        self.make(Con('Begin', (0, 0, ())))
        self.meet(0, 0, self.change())
        self.step(0, 1, self.change())
        self.up(0, self.conn)
        self.save()

    def change(self): return Con('Set', (self.site(), (53,)))

    def make(self, *moves):
        super().make(*moves)
        bad = wire.invariant(self.k)
        if bad: raise Finding('%s after %d moves, by %r' % (bad, self.k.count, moves[-1]))

    def tick(self, now):
        self.make(Con('Tick', (now,)))
        self.server(Con('Tick'))

    def returns(self):
        """The data server starts again with all entries, and the session's Recover is taken."""
        self.again(len(self.k.c.f['orders'][0].a[0]))
        self.redial(0)
        self.accept(0)

    def all_up(self):
        while self.dial(0)['up']: self.up(0, self.conn)

    def all_down(self):
        while self.dial(0)['down']: self.down(0)


def welcome_on_its_way(s):
    s.returns()
    s.save()
    s.tick(60)
    s.save()
    s.all_down()


def welcome_taken(s):
    s.returns()
    s.save()
    s.down(0)
    s.tick(60)
    s.all_up()
    s.save()
    s.all_down()


def welcome_waits(s):
    s.returns()
    s.tick(60)
    s.save()
    s.all_down()


def recovers_twice(s):
    s.returns()
    s.save()
    s.down(0)
    s.redial(0)
    s.accept(0)
    s.tick(60)
    s.save()
    s.all_down()


def closed_in_trouble(s):
    s.server(Con('Broken', (s.conn,)))
    s.tick(60)
    s.redial(0)
    s.accept(0)
    s.save()
    s.all_down()


def dies(s):
    conn = s.conn
    s.step(0, 2, s.change())
    s.step(0, 3, s.change())
    s.step(1, 1, s.change())
    s.app(1, Con('Connected', (0,)))
    s.make(Con('Die', (0,)), Con('Die', (1,)))
    s.up(0, conn)
    s.accept(1)
    s.up(0, conn)
    s.save()
    s.again(len(s.k.c.f['orders'][0].a[0]))
    s.tick(60)
    s.save()


def dies_in_a_round(s):
    s.returns()
    s.save()
    s.down(0)
    s.make(Con('Die', (0,)))
    s.all_up()
    s.tick(500)


def older_ones_come_late(s):
    s.redial(0)
    s.redial(0)
    s.accept(0)
    s.down(0)
    s.accept(0, 2)
    s.again(len(s.k.c.f['orders'][0].a[0]))
    s.redial(0)
    s.redial(0)
    s.accept(0)
    s.save()
    s.accept(0, 4)


def run():
    for f in (welcome_on_its_way, welcome_taken, welcome_waits, recovers_twice, closed_in_trouble, dies, dies_in_a_round, older_ones_come_late):
        s = Run()
        f(s)
        print('%s: %d moves' % (f.__name__, s.k.count))


if __name__ == '__main__': threaded(run)
