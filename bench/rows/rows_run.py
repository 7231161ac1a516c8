"""A worked script as allowed moves: lines, rounds, ticks and jobs as the scripts' rules have them."""
from antt import Con, Rec, NONE, deref
from rows_cluster import Cluster, run_of
from rows_text import act_text, answer_text, message_text, run_text


class Wire:
    """A connection as the net has it."""
    def __init__(self, app, server, dial):
        self.app, self.server, self.dial = app, server, dial
        self.conn = None                       # its number once it is accepted
        self.cut = False                       # ended by the net: parted, shut, or a dead application server
        self.app_on, self.server_on = True, True   # that end has neither left nor noticed


class Runner:
    def __init__(self, script, ask_plain=True, checks=(), disks=()):
        self.s = script
        self.layout = Rec({'servers': len(script.servers), 'apps': len(script.apps), 'job_apps': tuple(script.job_apps), 'times': Rec(dict(script.times))})
        self.c = Cluster(self.layout, ask_plain)
        self.c.checks = [check(self.layout) for check in checks]
        self.wires, self.parted, self.conns = [], set(), 0
        self.disk = [0] * len(script.servers)
        self.dead, self.down = set(), set()
        self.fails = 0
        self.clock, self.line = 0, 0
        self.flowing = True
        self.queues = [[] for _ in script.jobs]
        self.last_waiting = [None] * len(script.jobs)
        self.printed = [None] * len(script.jobs)
        self.out, self.told = [], []
        for d in range(len(script.servers)):
            self.begin(d, disks[d] if d < len(disks) else ())

    # moves

    def say(self, text):
        self.told.append(text)

    def move(self, move, what):
        outs, acts = self.c.move(move)
        self.say(self.described(what, outs, acts))
        return outs, acts

    def described(self, what, outs, acts):
        f, parts = outs.f, []
        if f['answer'].n == 'Some':
            parts.append('answers ' + answer_text(f['answer'].a[0], self.s.servers))
        for x in f['ups']:
            parts.append('puts up to %s: %s' % (self.s.servers[x.f['server']], self.frame(x.f['up'])))
        for x in f['downs']:
            parts.append('puts down on conn %d: %s' % (x.f['conn'], self.frame(x.f['down'])))
        if f['connects']:
            parts.append('asks to connect to ' + ', '.join(self.s.servers[d] for d in f['connects']))
        if f['app_cuts']:
            parts.append('cuts its connection to ' + ', '.join(self.s.servers[d] for d in f['app_cuts']))
        if f['data_cuts']:
            parts.append('cuts conn ' + ', '.join(map(str, f['data_cuts'])))
        parts += ['WRITES ' + act_text(a) for a in acts]
        return '%3d  %s%s' % (self.c.count, what, ''.join('\n       - ' + p for p in parts))

    @staticmethod
    def frame(f):
        return 'seq %d ack %d %s' % (f.f['seq'], f.f['ack'], message_text(f.f['message'], run_of))

    def app_move(self, app, what, input_):
        outs, _ = self.move(Con('App', (app, self.clock, input_)), 'App %s %s' % (self.s.apps[app], what))
        self.app_outs(app, outs)

    def app_outs(self, app, outs):
        for d in outs.f['app_cuts']:
            self.leaves_app(app, d)
        for d in outs.f['connects']:
            self.connect(app, d)

    def leaves_app(self, app, d):
        for w in reversed(self.wires):
            if (w.app, w.server) == (app, d):
                w.app_on = False
                return

    def connect(self, app, d):
        if (app, d) in self.parted or d in self.down:
            before, self.fails = self.fails, self.fails + 1
            self.app_move(app, 'NoWay %s %d %d' % (self.s.servers[d], before, self.fails), Con('NoWay', (d, before, self.fails)))
            return
        self.app_move(app, 'Connected %s' % self.s.servers[d], Con('Connected', (d,)))
        self.wires.append(Wire(app, d, self.dials()[-1].f['number']))

    def server_move(self, d, what, input_):
        outs, _ = self.move(Con('Server', (d, self.clock, input_)), 'Server %s %s' % (self.s.servers[d], what))
        for conn in outs.f['data_cuts']:
            for w in self.wires:
                if (w.server, w.conn) == (d, conn):
                    w.server_on = False

    def save(self, d):
        n = len(self.node(d).f['order'])
        self.server_move(d, 'Saved %d' % n, Con('Saved', (n,)))
        self.disk[d] = n

    def begin(self, d, entries):
        self.move(Con('Begin', (d, self.clock, entries)), 'Begin %s with %d entries' % (self.s.servers[d], len(entries)))
        self.save(d)

    # what stands

    def node(self, d):
        node = self.c.state.f['nodes'][d]
        return node.a[0] if node.n == 'Some' else None

    def dials(self):
        return self.c.state.f['dials']

    def dial(self, w):
        return next(x for x in self.dials() if (x.f['app'], x.f['server'], x.f['number']) == (w.app, w.server, w.dial))

    def up_frames(self, w):
        """Frames that the data end has yet to take; a connection that the net cut carries none."""
        return () if w.cut or not w.server_on else self.dial(w).f['up']

    def down_frames(self, w):
        return () if w.cut or not w.app_on else self.dial(w).f['down']

    def server_end(self, w):
        """The data end has an end of this connection to notice."""
        return w.server_on and w.conn is not None and (w.cut or not w.app_on)

    def app_end(self, w):
        return w.app_on and w.app not in self.dead and (w.cut or not w.server_on)

    def unsaved(self, d):
        node = self.node(d)
        return len(node.f['order']) - node.f['synced'] if node else 0

    def accept(self, d):
        if d in self.down:
            return
        for w in self.wires:
            if w.server == d and w.conn is None and w.server_on:
                if w.cut or (not w.app_on and not self.dial(w).f['up']):
                    w.server_on = False
                    continue
                self.conns += 1
                w.conn = self.conns
                self.server_move(d, 'Connected %d' % w.conn, Con('Connected', (w.conn,)))

    def take_up(self, w):
        frames = self.up_frames(w)
        if frames:
            self.server_move(w.server, 'takes on conn %d %s' % (w.conn, self.frame(frames[0])), Con('Frame', (w.conn, frames[0])))
            return True
        if self.server_end(w):
            w.server_on = False
            self.server_move(w.server, 'Broken %d' % w.conn, Con('Broken', (w.conn,)))
            return True
        return False

    def take_down(self, w):
        frames = self.down_frames(w)
        if frames and w is self.last_wire(w.app, w.server):
            self.app_move(w.app, 'takes from %s %s' % (self.s.servers[w.server], self.frame(frames[0])), Con('Frame', (w.server, frames[0])))
            return True
        if self.app_end(w):
            w.app_on = False
            if w is self.last_wire(w.app, w.server):
                self.app_move(w.app, 'Broken %s' % self.s.servers[w.server], Con('Broken', (w.server,)))
            return True
        return False

    def last_wire(self, app, d):
        return [w for w in self.wires if (w.app, w.server) == (app, d)][-1]

    def pair(self, app, d):
        return [w for w in self.wires if (w.app, w.server) == (app, d)]

    def up(self, app, d):
        if d in self.down:
            return False
        self.accept(d)
        return any(self.take_up(w) for w in self.pair(app, d))

    def downwards(self, app, d):
        return app not in self.dead and any(self.take_down(w) for w in self.pair(app, d))

    # rounds

    def undelivered(self):
        n = 0
        for w in self.wires:
            if w.server not in self.down:
                n += len(self.up_frames(w)) + self.server_end(w)
            if w.app not in self.dead:
                n += len(self.down_frames(w)) + self.app_end(w)
        return n

    def left(self):
        return self.undelivered() + sum(self.unsaved(d) for d in range(len(self.s.servers)))

    def round(self):
        todo = []
        for app in range(len(self.s.apps)):
            for d in range(len(self.s.servers)):
                pair = self.pair(app, d)
                ups = sum(len(self.up_frames(w)) + (self.server_end(w) or (w.conn is None and w.server_on and (w.cut or not w.app_on))) for w in pair)
                downs = sum(len(self.down_frames(w)) + self.app_end(w) for w in pair)
                todo.append((app, d, ups, downs))
        for app, d, ups, downs in todo:
            for _ in range(ups):
                self.up(app, d)
            for _ in range(downs):
                self.downwards(app, d)
        for d in range(len(self.s.servers)):
            if self.unsaved(d):
                self.save(d)
        self.jobs()

    def rounds(self):
        bound = 8 * sum(map(len, self.queues)) + 16
        while self.left() and bound:
            self.round()
            bound -= 1

    def jobs(self):
        for j, queue in enumerate(self.queues):
            while queue and self.s.job_apps[j] not in self.dead:
                line, command = queue[0]
                outs, _ = self.move(Con('Step', (j, self.clock, line, command)), 'Step %s line %d %s' % (self.s.jobs[j], line, command.n))
                answer, fails = outs.f['answer'].a[0], self.fails
                self.app_outs(self.s.job_apps[j], outs)
                if answer.n == 'Waiting' and self.fails > fails:
                    continue               # its attempt failed at once: it steps again
                if answer.n == 'Waiting':
                    self.last_waiting[j] = (line, deref(answer.a[0]).n.lower())
                    break
                self.last_waiting[j] = None
                queue.pop(0)
                self.out.append('%s %d %s' % (self.s.jobs[j], line, answer_text(answer, self.s.servers)))

    def waitings(self):
        for j, waiting in enumerate(self.last_waiting):
            if self.queues[j] and waiting and waiting != self.printed[j]:
                self.printed[j] = waiting
                self.out.append('%s %d waiting %s' % (self.s.jobs[j], *waiting))

    # lines

    def run(self):
        for number, word, x, command in self.s.lines:
            self.line = number
            self.say('line %d: %s' % (number, self.raw(word, x, command)))
            if word == 'job':
                self.job_line(number, x, command)
            elif word == 'tick':
                for _ in range(int(x[0])):
                    self.tick()
            else:
                getattr(self, 'do_' + word)(number, *x)
            self.jobs()
            if self.flowing:
                self.rounds()
            self.waitings()
        trail = ['trail', 'times %s' % ' '.join(str(v) for v in [*self.s.times.values(), *self.s.job_apps])]
        trail += [act_text(a) for a in self.c.state.f['trail']]
        return '\n'.join(self.out + trail) + '\n'

    def raw(self, word, x, command):
        return self.texts[self.line - 1]

    def job_line(self, number, j, command):
        if self.s.job_apps[j] in self.dead:
            self.out.append('%s %d gone' % (self.s.jobs[j], number))
        else:
            self.queues[j].append((number, command))

    def do_hold(self, number):
        self.flowing = False

    def do_flow(self, number):
        self.flowing = True

    def do_up(self, number, app, server):
        self.up(self.s.apps.index(app), self.s.servers.index(server))

    def do_down(self, number, app, server):
        self.downwards(self.s.apps.index(app), self.s.servers.index(server))

    def do_save(self, number, server):
        d = self.s.servers.index(server)
        if self.unsaved(d):
            self.save(d)

    def do_pump(self, number):
        self.jobs()
        self.rounds()
        left = self.left()
        self.out.append('* %d %s' % (number, 'left %d' % left if left else 'quiet'))

    def do_await(self, number, job):
        pass

    def tick(self):
        self.clock += 1
        self.move(Con('Tick', (self.clock,)), 'Tick %d' % self.clock)
        for app in range(len(self.s.apps)):
            if app not in self.dead:
                self.app_move(app, 'Tick', Con('Tick'))
        for d in range(len(self.s.servers)):
            if d not in self.down:
                self.server_move(d, 'Tick', Con('Tick'))
        self.jobs()
        if self.flowing:
            self.rounds()

    def do_break(self, number, app, server):
        app, d = self.s.apps.index(app), self.s.servers.index(server)
        self.parted.add((app, d))
        for w in self.pair(app, d):
            w.cut = True

    def do_mend(self, number, app, server):
        app, d = self.s.apps.index(app), self.s.servers.index(server)
        self.parted.discard((app, d))
        self.app_move(app, 'Join %s' % server, Con('Join', (d,)))

    def do_crash(self, number, server, pick='0'):
        d = self.s.servers.index(server)
        if d in self.down:
            return
        self.move(Con('Halt', (d,)), 'Halt %s' % server)
        self.down.add(d)
        for w in self.wires:
            if w.server == d:
                w.cut, w.server_on = True, False

    def do_restart(self, number, server):
        d = self.s.servers.index(server)
        if d not in self.down:
            self.out.append('%s %d running' % (server, number))
            return
        self.down.discard(d)
        kept = self.c.state.f['orders'][d].a[0][:self.disk[d]]
        self.begin(d, kept)
        self.out.append('%s %d kept %d' % (server, number, len(kept)))

    def do_die(self, number, app):
        a = self.s.apps.index(app)
        self.move(Con('Die', (a,)), 'Die %s' % app)
        self.dead.add(a)
        for w in self.wires:
            if w.app == a:
                w.cut, w.app_on = True, False
