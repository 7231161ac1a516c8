"""The wire's account of a row: at its end each clause of `WireHolds` is asked, place by place, with the courses that the moves themselves show."""
import antt
from antt import Con, Prop, Rec, Var, NONE, some, apply, deref, module, resolve, solve, undo, eqv
from rows_cluster import deep, word
from rows_machine import Machine, with_machine
from rows_terms import term

SPECS = 'Rattle.cluster_runs.specs.'
antt.TYPES |= {'Seen', 'Notes', 'Told', 'Heard'}
antt.built('All', 2)(lambda f, xs: antt.Prop('py', lambda: all(solve(apply(f, (x,))) for x in xs)))


def w(file, name, *args):
    v = resolve(module(SPECS + file), name)
    return deref(apply(v, args)) if args else v


def lane_of(plain, server, app):
    """The session and the place of the order that an application server's pair is told of."""
    s = deref(apply(plain.f['server_at'], (server,)))
    pair = deref(deref(apply(s.f['pair_at'], (app,))).f['session'])
    if pair.n == 'None':
        return None
    session = deref(apply(s.f['session_at'], (pair.a[0],)))
    return (pair.a[0], deref(session.a[0].f['told'])) if session.n == 'Some' else None


def is_front(xs, ys):
    return Prop('py', lambda: len(deref(xs)) <= len(deref(ys)) and all(eqv(deep(a), deep(b)) for a, b in zip(deref(xs), deref(ys))))


antt.over('Carried.IsFront', 2, is_front)


class WireCheck:
    def __init__(self, layout):
        with_machine()
        self.layout, self.machine = layout, Machine(layout)
        self.servers, self.apps = layout.f['servers'], layout.f['apps']
        self.heard, self.told, self.notes, self.before, self.changes = {}, {}, {}, {}, {}
        self.asked = 0

    def __call__(self, cluster, move, outs, acts):
        old = self.machine.m
        problem = self.machine.move(move, outs, acts)
        if problem:
            raise AssertionError(problem)
        if move.n == 'Server':
            self.at_server(move.a[0], old, acts)
        elif move.n == 'App':
            self.at_app(move, cluster)
        elif move.n in ('Step', 'Looked'):
            self.at_job(move, outs, acts, cluster)

    # the data end: what it appends, puts and saves

    def site(self, m, d):
        return deref(apply(m.f['site_at'], (d,)))

    def at_server(self, d, old, acts):
        was, now = self.site(old, d), self.site(self.machine.m, d)
        k = deref(now.f['past'])
        changes = [c for a in acts for c in w('WireDrops', 'changes_by', d, a)]
        for session in range(len(now.f['node'].a[0].f['order']) + 1):
            before = deref(apply(was.f['lane_at'], (session, k))).f['down']
            after = deref(apply(now.f['lane_at'], (session, k))).f['down']
            assert after[:len(before)] == before or eqv(after[:len(before)], before)
            puts = list(after[len(before):])
            key = (d, session, k)
            if key not in self.told:
                self.told[key], self.before[key] = [], tuple(self.changes.get((d, k), ()))
                self.notes[key] = w('WireDrops', 'notes_after', w('WireDrops', 'began_with', now.f['order'].a[0]), self.before[key])
            course = self.told[key]
            for change in changes:
                course.append(change)
                if change.n == 'Appends':
                    notes = deep(w('WireDrops', 'appended', self.notes[key], session, change.a[0]))
                    for _ in notes.f['due']:
                        if puts:
                            course.append(Con('Puts', (puts.pop(0),)))
                    self.notes[key] = Rec({**notes.f, 'due': ()})
            for m in puts:
                course.append(Con('Puts', (m,)))
                if m.n == 'Block':
                    v = Var()
                    assert solve(w('WireDrops', 'PutsMessage', m, self.notes[key], v))
                    self.notes[key] = deep(v)
                    undo(0)

        self.changes.setdefault((d, k), []).extend(changes)

    # the application end: what it took, read and asked

    def hear(self, app, d, lane, event):
        if lane is not None:
            self.heard.setdefault((app, d) + lane, []).append(event)

    def end(self, c, app, d):
        return c['apps'][app].f['ends'][d].f

    def lane(self, app, d):
        told = deref(deref(apply(self.site(self.machine.m, d).f['end_at'], (app,))).f['told'])
        return (told.a[0].f['session'], told.a[0].f['order']) if told.n == 'Some' else None

    def at_app(self, move, cluster):
        app, _, input_ = move.a
        if input_.n != 'Frame':
            return
        d, m = input_.a[0], input_.a[1].f['message']
        was, now = self.end(cluster.before.f, app, d), self.end(cluster.state.f, app, d)
        if was['session'].n == 'None' or now['session'].n == 'None':
            return
        a, b = was['session'].a[0].f, now['session'].a[0].f
        if a['epoch'] == b['epoch'] and b['window'].f['taken'] > a['window'].f['taken']:
            self.hear(app, d, self.lane(app, d), Con('Took', (m,)))
            if m.n == 'Normal':
                for f in a['again']:
                    line = cluster.state.f['begun'][f.f['job']].f['line']
                    self.hear(app, d, self.lane(app, d), Con('Asks', (f.f['job'], line, f.f['key'])))

    def at_job(self, move, outs, acts, cluster):
        job, line, command = move.a[0], move.a[-2], move.a[-1]
        app = self.layout.f['job_apps'][job]
        answer = outs.f['answer'].a[0]
        if answer.n == 'Waiting' and answer.a[0].n == 'Fetch':
            d = command.a[0].f['server']
            if command.n == 'Shape':
                self.hear(app, d, self.lane(app, d), Con('Lacks', (Con('Shape', (command.a[0].f['key'],)),)))
            if command.n == 'Next':
                self.hear(app, d, self.lane(app, d), Con('Lacks', (Con('NextOf', (command.a[0].f['key'], command.a[1])),)))
        for u in outs.f['ups']:
            m = u.f['up'].f['message']
            if m.n == 'Fetch':
                self.hear(app, u.f['server'], self.lane(app, u.f['server']), Con('Asks', (job, line, m.a[0])))
        plain = cluster.plain_before
        for act in acts:
            if act.n == 'Read':
                d = act.a[2]
                event = Con('Peeks', (job, line, act.a[3], act.a[5])) if move.n == 'Looked' else Con('Reads', (job, line, act.a[3], act.a[4], act.a[5]))
                self.hear(app, d, lane_of(plain, d, app), event)
            if act.n == 'Refused':
                for d in range(self.servers):
                    self.hear(app, d, lane_of(plain, d, app), Con('Refuses', act.a))
            plain = deref(apply(word('after'), (self.layout, plain, act)))

    # at the end

    def ask(self, what, p):
        self.asked += 1
        if not solve(p):
            raise AssertionError('the wire: ' + what)
        undo(0)

    def same(self, what, a, b):
        self.asked += 1
        if not eqv(deep(a), deep(b)):
            raise AssertionError('the wire: %s: %s / %s' % (what, term(deep(a))[:300], term(deep(b))[:300]))

    def at_end(self, cluster):
        trail, plain, l = cluster.state.f['trail'], cluster.plain, self.layout
        sent = w('Machine', 'sent_of', self.machine.m)
        orders = {}
        for d in range(self.servers):
            s = deref(apply(plain.f['server_at'], (d,)))
            places = w('Written', 'order_places', plain, d)
            for k in places:
                orders[(d, k)] = deep(apply(resolve(module('Rattle.plain_runs.specs.Plain'), 'order_at'), (s, k)))
            sessions = range(max(len(orders[(d, k)]) for k in places) + 2)
            for session in sessions:
                lanes = w('Sent', 'lanes_of', plain, sent, d, session)
                issued = apply(resolve(module('Rattle.plain_runs.specs.Plain'), 'issued_in'), (s, session))
                self.same('items issued %d %d' % (d, session), w('WireItems', 'items_above', 0, w('Sent', 'ups_of', lanes)), w('WireItems', 'issued_from', 0, issued))
                for k in places:
                    self.in_order(d, session, k, plain, sent, trail, orders[(d, k)])
            for k in places:
                acts = w('WireCauses', 'acts_in', l, trail, d, k)
                for app in range(self.apps):
                    hellos = apply(sent.f['hellos_at'], (d, k, app))
                    self.ask('hellos %d %d %d' % (d, k, app), w('WireCauses', 'HellosServe', acts, orders[(d, k)], d, app, hellos))
            for app in range(self.apps):
                self.of_app(app, d, sessions, places, plain, sent, trail)
        self.epochs(plain, sent, trail)

    def in_order(self, d, session, k, plain, sent, trail, order):
        lane = deep(apply(sent.f['lane_at'], (d, session, k)))
        kept, entered = w('WireItems', 'kept_in', order), w('WireItems', 'entered_in', order)
        count = apply(resolve(module('Rattle.plain_orders.specs.Entries'), 'count'), (kept, session))
        items = w('WireItems', 'items_above', count, w('Sent', 'ups_taken', lane))
        mine = tuple(e for e in deep(entered) if deref(apply(resolve(module(SPECS + 'WireItems'), 'is_item_of'), (session, e))))
        self.same('items entered %d %d %d' % (d, session, k), tuple(w('WireItems', 'as_entry', session, i) for i in items), mine)
        acts = w('WireCauses', 'acts_in', self.layout, trail, d, k)
        locks = w('WireCauses', 'LocksHaveCauses', acts, d, session, lane)
        for lock in self.locks_in(acts, lane):
            for field, p in locks_of(locks, lock):
                self.ask('%s of a lock %d %d %d' % (field, d, session, k), p)
        self.ask('rounds %d %d %d' % (d, session, k), w('WireCauses', 'NoneWasDone', acts, d, session, lane))
        key = (d, session, k)
        course, before = tuple(self.told.get(key, ())), self.before.get(key, ())
        began = w('WireDrops', 'began_with', order)
        changes = w('WireDrops', 'changes_of', d, w('Written', 'written_while', self.layout, trail, w('Written', 'has_order', d, k)))
        if key not in self.told:
            before = tuple(changes)
        self.same('changes %d %d %d' % (d, session, k), changes, before + w('WireDrops', 'changes_in', course))
        self.same('puts %d %d %d' % (d, session, k), w('WireDrops', 'puts_in', course), lane.f['down'])
        self.ask('causes of puts %d %d %d' % (d, session, k), w('WireDrops', 'PutsFrom', session, course, w('WireDrops', 'notes_after', began, before)))
        blocks = tuple(m for m in lane.f['down'] if m.n == 'Block')
        self.ask('blocks %d %d %d' % (d, session, k), w('WireDrops', 'BlocksAnswer', blocks, w('WireReads', 'fetched_in', w('Sent', 'ups_taken', lane))))
        app = apply(resolve(module(SPECS + 'Carried'), 'app_in'), (order, session))
        carriers = w('Carried', 'carriers', sent, app, d, session, k)
        self.ask('carried %d %d %d' % (d, session, k), w('Carried', 'IsLane', order, session, lane, carriers))
        assert 64 * lane.f['down_bares'] <= lane.f['up_taken'] and 64 * lane.f['up_bares'] <= lane.f['down_taken']

    def locks_in(self, acts, lane):
        found = {}
        for a in acts:
            if a.n in ('Grant', 'Free'):
                found[repr((a.a[2], a.a[3], a.a[4]))] = Rec({'job': a.a[2], 'mode': a.a[3], 'key': a.a[4]})
        for m in lane.f['up']:
            if m.n == 'Ask':
                found[repr(m.a[1:])] = Rec({'job': m.a[1], 'mode': m.a[2], 'key': m.a[3]})
        return found.values()

    def of_app(self, app, d, sessions, places, plain, sent, trail):
        welcomes = deep(apply(sent.f['welcomes_at'], (app, d)))
        came = w('Carried', 'hellos_in', sent, d, app, tuple(places))
        connections = w('Carried', 'connections_of', sent, app, d)
        frames = [f for c in connections for f in w('Carried', 'ups_came', c)]
        assert came <= sum(1 for f in frames if w('Carried', 'is_hello', f)), 'Hellos'
        for n, c in enumerate(connections, 1):
            c = deref(c)
            self.ask('connection %d %d %d' % (app, d, n), w('Carried', 'ItsIs', plain, d, c.a[0], deref(c.a[0]).f['its']))
        downs = [x for c in connections for f in w('Carried', 'downs_came', c) for x in w('Carried', 'welcome_in', f)]
        for x in welcomes:
            assert sum(1 for y in welcomes if eqv(x, y)) <= sum(1 for y in downs if eqv(deep(x), deep(y))), 'Welcomes'
        p = w('WireAnswers', 'WelcomesServe', trail, app, d, welcomes)
        for session in sessions:
            self.field('welcomes', p, 'each', session)
        for a in trail:
            if a.n == 'Told' and a.a[:2] == (app, d):
                self.field('told welcomes', p, 'told', Rec({'session': a.a[2], 'epoch': a.a[3], 'kept': a.a[4]}))
        for session in sessions:
            before = ()
            taken = w('Sent', 'taken_of', w('Sent', 'lanes_of', plain, sent, d, session))
            acts = w('Written', 'acts_of', self.layout, app, w('Written', 'written_while', self.layout, trail, w('Written', 'has_session', app, d, session)))
            p = w('WireAnswers', 'AnswersServe', self.layout, acts, app, d, taken)
            for a in acts:
                if a.n in ('Counted', 'NotWhole', 'Range', 'Committed', 'RolledBack'):
                    self.field('answers', p, 'answered', Con(a.n), a.a[0], a.a[3], a.a[4] if a.n == 'Counted' else 0)
                if a.n == 'Reached':
                    self.field('syncs', p, 'reached', a.a[3])
            for k in places:
                lane = deep(apply(sent.f['lane_at'], (d, session, k)))
                acts = w('Written', 'acts_of', self.layout, app, w('Written', 'written_while', self.layout, trail, w('Written', 'is_told_of', app, d, session, k)))
                p = w('WireAnswers', 'GrantsServe', acts, d, lane)
                for a in acts:
                    if a.n == 'Granted':
                        self.field('grants', p, 'granted', a.a[0], a.a[3])
                mine = any(key[:2] == (d, session) for key in self.told) and (app, d, session, k) in self.heard
                heard = tuple(self.heard.get((app, d, session, k), ()))
                if not mine and not acts:
                    continue
                what = 'reads %d %d %d %d' % (app, d, session, k)
                self.same(what + ' took', w('WireReads', 'took_in', heard), w('Sent', 'downs_taken', lane))
                self.same(what + ' asked', w('WireReads', 'asked_in', heard), w('WireReads', 'fetched_in', lane.f['up']))
                wanted = tuple(a for a in acts if (a.n == 'Read' and a.a[2] == d) or a.n == 'Refused')
                self.same(what + ' written', w('WireReads', 'written_in', d, heard), wanted)
                seen, left = Rec({'n': lane.f['front'].f['n'], 'runs': (), 'shown': (), 'askers': before}), Var('left')
                self.asked += 1
                if not solve(w('WireReads', 'ReadsFrom', self.layout, app, heard, seen, left)):
                    raise AssertionError('the wire: %s: %r' % (what, heard))
                before = deep(left)
                undo(0)

    def field(self, what, p, name, *values):
        """A field that speaks of all values, asked at some."""
        _, mod, _, env, fields = p.k, *p.x
        env = dict(env)
        e = dict(fields)[name]
        values = list(values)
        while e[0] == 'op' and e[1] == '→' and values and takes_values(e[2]):
            for n in names_in(e[2]):
                env[n] = values.pop(0)
            e = e[3]
        self.ask(what, antt.ev(mod, env, e))

    def epochs(self, plain, sent, trail):
        p = word('start', 'plain_start')
        for act in trail:
            after = deref(apply(word('after'), (self.layout, p, act)))
            if act.n == 'Told':
                app, d, session, epoch, kept = act.a
                k = w('WireEpochs', 'told_place', after, d, session)
                lane = deep(apply(sent.f['lane_at'], (d, session, k)))
                earlier = tuple(deep(apply(sent.f['lane_at'], (d, session, i))) for i in range(k))
                claims = []
                for m in lane.f['up']:
                    if m.n != 'Claim':
                        break
                    claims.append(m)
                again = tuple(m for m in w('WireEpochs', 'first_puts', 0, w('Sent', 'ups_of', earlier))
                              if w('WireEpochs', 'is_again', lane.f['front'].f['w'], w('Sent', 'taken_of', earlier), m))
                front = tuple(claims) + again + (Con('Done'),)
                self.same('epoch %r' % (act.a,), lane.f['up'][:len(front)], front)
                holds = deref(apply(p.f['server_at'], (d,))).f['holds']
                locks = {repr(x): x for x in [(m.a[0], m.a[1], m.a[4]) for m in claims] + [(h.f['job'], h.f['mode'], h.f['key']) for h in map(deref, holds)]}
                for job, mode, key in locks.values():
                    lock = Rec({'job': job, 'mode': mode, 'key': key})
                    claimed = w('WireEpochs', 'claimed', lock, tuple(claims))
                    kept_ = sum(1 for h in holds if deref(apply(resolve(module(SPECS + 'WireEpochs'), 'is_kept'), (session, job, mode, key, h))))
                    self.same('claimed', claimed, kept_)
                    self.same('one claim', sum(1 for m in claims if w('WireEpochs', 'is_claim_of', lock, m)), min(1, claimed))
            p = after


def takes_values(e):
    return e[0] == 'bind' or (e[0] == 'app' and all(x[0] == 'bind' for x in [e[1]] + e[2]))


def names_in(e):
    return e[1] if e[0] == 'bind' else [n for x in [e[1]] + e[2] for n in x[1]]


def locks_of(p, lock):
    """The fields of a statement over all locks, at one."""
    mod, _, env, fields = p.x
    for name, e in fields:
        yield name, antt.ev(mod, {**env, e[2][1][0]: lock}, e[3])
