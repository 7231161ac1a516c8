"""What was put and taken, asked of the definitions: `holds` is WireHolds, `accounted` is Accounted.

The two courses that WireHolds says there are, of reads and of Drops, are read off the moves here, and the definitions judge them.
"""
import os
import antt
from antt import Con, Rec, Prop, NONE, some, ap, deref, solve, unify, over, HINT, DOMAIN
from cluster import of, ask, state_after, written_while

NOW = {'run': None, 'lane': None}
ANSWERED = ('Granted', 'Counted', 'NotWhole', 'Range', 'Committed', 'RolledBack', 'Reached')


def accounted(k):
    """What a living end awaits without a cause, if there is any."""
    if of('Accounted', 'is_accounted')(k.c): return None
    l, c = k.l.f, k.c
    for a in range(l['apps']):
        if c.f['dead'][a]: continue
        for d in range(l['servers']):
            e = c.f['apps'][a].f['ends'][d]
            for x in of('Awaited', 'awaited_at')(e):
                if not of('Accounted', 'has_cause')(c, a, d, e, x): return 'app %d server %d awaits %r' % (a, d, x)
    return 'is_accounted is false'


def quiet(k):
    """What a quiet state leaves that it shouldn't, if there is something."""
    if not of('Accounted', 'is_quiet')(k.c): return None
    for a in range(k.l.f['apps']):
        for d in range(k.l.f['servers']):
            if k.c.f['dead'][a]: continue
            e = k.c.f['apps'][a].f['ends'][d]
            recovers = of('Accounted', 'is_recovering')(of('CoresState', 'node_at')(k.c, d))
            if not recovers and e.f['link'].n == 'Recovery': return 'quiet: app %d server %d is in Recovery' % (a, d)
            for x in of('Awaited', 'awaited_at')(e):
                if not of('Accounted', 'may_stay')(k.c, d, e, x): return 'quiet: app %d server %d awaits %r, which may not stay' % (a, d, x)
                if not of('Accounted', 'stays')(k.c, d, e, x): return 'quiet: app %d server %d awaits %r, which does not stay' % (a, d, x)


def told(k, app, server):
    """The session and the order that an end is told of."""
    t = deref(ap(deref(ap(k.m.f['site_at'], server)).f['end_at'], app)).f['told']
    return (t.a[0].f['session'], t.a[0].f['order']) if t.n == 'Some' else None


def lane(m, server, session, k): return deref(ap(deref(ap(m.f['site_at'], server)).f['lane_at'], session, k))


def session_of(c, app, server):
    s = c.f['apps'][app].f['ends'][server].f['session']
    return s.a[0].f if s.n == 'Some' else None


class Courses:
    """What happened at the ends, by lane: `heard` at the application end, `puts` at the data end."""

    def __init__(self): self.heard, self.puts = {}, {}

    def add(self, k, before_m, old, new, move, outs, acts):
        l = k.l.f
        if move.n == 'Step' or move.n == 'Looked':
            job = move.a[0]
            app = l['job_apps'][job]
            for d in range(l['servers']): self.hear_job(k, app, d, old, new, move, outs, acts)
        if move.n == 'App' and move.a[2].n == 'Frame':
            app, d = move.a[0], move.a[2].a[0]
            s, t = session_of(old, app, d), session_of(new, app, d)
            if s and t and s['number'] == t['number'] and s['epoch'] == t['epoch'] and t['window'].f['taken'] > s['window'].f['taken']:
                h = self.heard.setdefault((app, d) + told(k, app, d), [])
                h.append(Con('Took', (move.a[2].a[1].f['message'],)))
                h += [self.asks(new, f) for f in t['fetches'][len(s['fetches']):]] if move.a[2].a[1].f['message'].n == 'Normal' else []
        if move.n == 'Server':
            d = move.a[0]
            past = deref(deref(ap(k.m.f['site_at'], d)).f['past'])
            changes = of('WireDrops', 'changes_of')(d, acts)
            for s in k.sessions.get(d, ()):
                x, y = lane(before_m, d, s, past), lane(k.m, d, s, past)
                more = y.f['down'][len(x.f['down']):]
                if more or changes: self.puts.setdefault((d, s, past), []).append((changes, more))

    @staticmethod
    def asks(new, f):
        job = f.f['job']
        return Con('Asks', (job, new.f['begun'][job].f['line'], f.f['key']))

    def hear_job(self, k, app, d, old, new, move, outs, acts):
        s, t = session_of(old, app, d), session_of(new, app, d)
        if not s or not told(k, app, d): return
        h = self.heard.setdefault((app, d) + told(k, app, d), [])
        job, line = move.a[0], move.a[1] if move.n == 'Looked' else move.a[2]
        command = move.a[2] if move.n == 'Looked' else move.a[3]
        answer = outs.f['answer'].a[0]
        if answer.n == 'Waiting' and answer.a[0].n == 'Fetch' and command.a[0].f['server'] == d and command.n in ('Shape', 'Next'):
            h.append(Con('Lacks', (Con('Shape', (command.a[0].f['key'],)) if command.n == 'Shape' else Con('NextOf', (command.a[0].f['key'], command.a[1])),)))
        if t: h += [self.asks(new, f) for f in t['fetches'][len(s['fetches']):]]
        for a in acts:
            if a.n == 'Read' and a.a[2] == d:
                if move.n == 'Looked': h.append(Con('Peeks', (job, line, a.a[3], a.a[5])))
                else: h.append(Con('Reads', (job, line, a.a[3], a.a[4], a.a[5])))
            if a.n == 'Refused': h.append(Con('Refuses', a.a))


def course_of_puts(session, began, steps):
    """The changes and the messages of a lane as one list: Drops at once, any other as soon as it may come."""
    t = of('WireDrops', 'notes_after')(began, ())
    out = []
    for changes, more in steps:
        cs, ps = list(changes), list(more)
        while cs or ps:
            due = t.f['due']
            if ps and due:
                if ps[0] == due[0]: t = Rec({**t.f, 'due': due[1:]})
                out.append(Con('Puts', (ps.pop(0),)))
            elif ps and ps[0].n != 'Drop' and (ps[0].n != 'Ack' or t.f['saved']) and not t.f['closed']:
                m = ps.pop(0)
                if m.n == 'Ack': t = Rec({**t.f, 'saved': False})
                if m.n == 'Block': t = Rec({**t.f, 'noted': of('WireDrops', 'with_noted')(m.a[1][0].f['span'], t.f['noted'])})
                out.append(Con('Puts', (m,)))
            elif cs:
                e = cs.pop(0)
                t = of('WireDrops', 'appended')(t, session, e.a[0]) if e.n == 'Appends' else of('WireDrops', 'saved_upto')(t, session, e.a[0])
                out.append(e)
            else: out.append(Con('Puts', (ps.pop(0),)))
    return tuple(out)


def each_puts_right(l, trail, sent):
    def it():
        run = NOW['run']
        p = state_after(l, trail)
        for d in range(l.f['servers']):
            for k in of('Written', 'order_places')(p, d):
                acts = written_while(l, trail, antt.Fun(1, lambda q: of('Written', 'has_order')(d, k, q)))
                began = of('WireDrops', 'began_with')(of('Plain', 'order_at')(ap(p.f['server_at'], d), k))
                for s in sorted(run.sessions.get(d, ())) + [0]:
                    steps = run.courses.puts.get((d, s, k), [])
                    missing = len(of('WireDrops', 'changes_of')(d, acts)) - sum(len(c) for c, _ in steps)
                    if missing: steps = [(of('WireDrops', 'changes_of')(d, acts)[:missing], ())] + steps     # before the session was there
                    NOW['told'] = course_of_puts(s, began, steps)
                    if not solve(of('WireDrops', 'PutsRight')(s, acts, d, began, ap(sent.f['lane_at'], d, s, k))):
                        antt.FAILS.append('of server %d session %d order %d: %r' % (d, s, k, NOW['told']))
                        return False
        return True
    return Prop('py', it)


SKIP_OTHERS = not os.environ.get('ALL_APPS')     # a lane is asked of its own application server alone


def owns(l, trail, app, server, session, k):
    o = of('Sessions', 'app_in')(of('Plain', 'order_at')(ap(state_after(l, trail).f['server_at'], server), k), session)
    return o.n == 'Some' and o.a[0] == app


def reads_in(l, trail, sent, app, server, session, k, before, left):
    def it():
        run = NOW['run']
        x = ap(sent.f['lane_at'], server, session, k)
        heard = run.courses.heard.get((app, server, session, k))
        if heard is None and SKIP_OTHERS and not owns(l, trail, app, server, session, k): return unify(before, left)
        if heard is None:     # of another application server: any of its jobs serves
            jobs = [j for j, a in enumerate(l.f['job_apps']) if a == app] or [0]
            heard = [Con('Asks', (jobs[0], 0, key)) for key in of('WireReads', 'fetched_in')(x.f['up'])] + [Con('Took', (m,)) for m in x.f['down'][:x.f['down_taken']]]
        NOW['heard'] = tuple(heard)
        acts = of('Written', 'acts_of')(l, app, written_while(l, trail, antt.Fun(1, lambda q: of('Written', 'is_told_of')(app, server, session, k, q))))
        if not solve(of('WireReads', 'ReadsRight')(l, app, acts, server, x, before, left)):
            antt.FAILS.append('of app %d server %d session %d order %d: %r' % (app, server, session, k, NOW['heard']))
            return False
        return True
    return Prop('py', it)


def epochs_begin_right(l, trail, sent):
    def it():
        for i, a in enumerate(trail):
            if a.n != 'Told': continue
            app, d, session, epoch, kept = a.a
            k = of('WireEpochs', 'told_place')(state_after(l, trail[:i+1]), d, session)
            if not solve(of('WireEpochs', 'BeginsAfter')(state_after(l, trail[:i]), sent, d, session, k)):
                antt.FAILS.append('of %r' % (a,))
                return False
        return True
    return Prop('py', it)


def rest_of(env):
    claims, x, earlier = deref(env['claims']), env['x'], env['earlier']
    f = x.f['front'].f['w']
    again = [m for m in of('WireEpochs', 'first_puts')(0, of('Sent', 'ups_of')(earlier)) if of('WireEpochs', 'is_again')(f, of('Sent', 'taken_of')(earlier), m)]
    return x.f['up'][len(claims) + len(again) + 1:]


def claims_of(env):
    out = ()
    for m in env['x'].f['up']:
        if m.n != 'Claim': break
        out += (m,)
    return out


over('WireDrops.EachPutsRight', 3, each_puts_right)
over('WireReads.ReadsIn', 9, reads_in)
over('WireEpochs.EpochsBeginRight', 3, epochs_begin_right)
HINT[('PutsRight', 'before')] = lambda env: ()
HINT[('PutsRight', 'told')] = lambda env: NOW['told']
HINT[('ReadsRight', 'heard')] = lambda env: NOW['heard']
HINT[('BeginsRight', 'claims')] = claims_of
HINT[('BeginsRight', 'rest')] = rest_of


def is_front(xs, ys):
    def it():
        n = len(xs)
        return ys[:n] == xs or bool(antt.failed('IsFront'))
    return Prop('py', it)


over('Carried.IsFront', 2, is_front)


def carried(k, p, sent):
    """What IsCarried says of lanes and connections apart from the net's bytes."""
    word = lambda n: of('Carried', n)

    def it():
        for d in range(k.l.f['servers'] + 1):
            server = ap(p.f['server_at'], d)
            places = of('Written', 'order_places')(p, d)
            for a in range(k.l.f['apps'] + 1):
                for n in range(1, ap(sent.f['dials_at'], a, d) + 1):
                    c = deref(ap(sent.f['connection_at'], a, d, n))
                    if c.n == 'None' or not solve(word('ItsIs')(p, d, c.a[0], c.a[0].f['its'])): return antt.failed('ItsIs of app %d server %d number %d' % (a, d, n))
                came = of('Sent', 'connections_of')(sent, a, d)
                frames = [f for c in came for f in word('ups_came')(c)]
                if word('hellos_in')(sent, d, a, places) > sum(word('is_hello')(f) for f in frames): return antt.failed('IsCarried.hellos of app %d server %d' % (a, d))
                taken, said = deref(ap(sent.f['welcomes_at'], a, d)), [w for c in came for f in word('downs_came')(c) for w in word('welcome_in')(f)]
                for x in taken:
                    if sum(w == x for w in taken) > sum(w == x for w in said): return antt.failed('IsCarried.welcomes of app %d server %d' % (a, d))
            for s in sorted(k.sessions.get(d, ())) + [0]:
                for j in tuple(places) + (len(places),):
                    app = of('Sessions', 'app_in')(of('Plain', 'order_at')(server, j), s)
                    if not solve(word('IsLane')(of('Plain', 'order_at')(server, j), s, ap(sent.f['lane_at'], d, s, j), word('carriers')(sent, app, d, s, j))):
                        return antt.failed('lane of server %d session %d order %d' % (d, s, j))
        return True
    return Prop('py', it)


def invariant(k):
    """What of the invariant's own definitions fails, if something does."""
    d, trail = DOMAIN, k.c.f['trail']
    p = state_after(k.l, trail)
    most = max(len(ap(p.f['server_at'], s).f['past']) for s in range(k.l.f['servers']))
    every = sorted({s for of_server in k.sessions.values() for s in of_server})
    d.update({'session': every + [0], 'k': range(most + 2), 'i': range(most + 2), 'before': d['number'], 'Lock': locks_in(k) + [NO_LOCK]})
    del antt.FAILS[:]
    try: ok = ask(of('Holds', 'Holds')(k.l, k.m)) and promises(k, p)
    finally:
        for n in ('session', 'k', 'i', 'before', 'Lock'): d.pop(n, None)
    return None if ok else 'the invariant: %s' % '; '.join(antt.FAILS[:14])


def promises(k, p):
    """Whether what the cluster owes its jobs holds, of each data server and of the jobs."""
    def at(d):
        v, x, is_dead = ap(p.f['server_at'], d), ap(k.m.f['site_at'], d), k.m.f['is_dead_at']
        return all(ask(of(*word)(v, x, is_dead)) for word in (('Items', 'ItemsHold'), ('Answers', 'AnswersHold')))
    of_machine = (('Jobs', 'JobsHold'), ('LocksHold', 'LocksHold'))
    return all(at(d) for d in range(k.l.f['servers'] + 1)) and all(ask(of(*word)(p, k.m)) for word in of_machine)


def resets_of(env):
    left = env['left']
    return left[-1:] if left and left[-1].f['message'].n == 'Reset' else ()


over('Words.IsFront', 2, is_front)
def front_of(ups, kinds):
    n = 0
    while n < len(ups) and ups[n].n in kinds: n += 1
    return ups[:n]


HINT[('QueueIs', 'acked')] = lambda env: max(deref(env['queue'][0].f['w']) - 1, 0) if len(env['queue']) else len(env['issued'])
HINT[('ComesBack', 'claims')] = lambda env: front_of(env['ups'], ('Claim',))
HINT[('ComesBack', 'items')] = lambda env: front_of(env['ups'][len(deref(env['claims'])):], ('Update', 'Add', 'Commit', 'Rollback'))
HINT[('DownWay', 'ends')] = resets_of
HINT[('DownWay', 'its')] = lambda env: env['left'][:len(env['left']) - len(resets_of(env))]


def locks_in(k):
    """Each lock that an act or a message names."""
    found = {}
    for a in k.c.f['trail']:
        if a.n in ('Grant', 'Free'): found[a.a[2], a.a[3].n, a.a[4]] = a.a[3]
        if a.n in ('GiveUp', 'Quit'): found[a.a[0], a.a[3].n, a.a[4]] = a.a[3]
    return [Rec({'job': j, 'mode': m, 'key': key}) for (j, _, key), m in found.items()]


NO_LOCK = Rec({'job': 0, 'mode': Con('Exclusive'), 'key': ()})


def holds(k):
    """What of WireHolds fails, if something does."""
    NOW['run'] = k
    trail, l = k.c.f['trail'], k.l
    sent = of('Machine', 'sent_of')(k.m)
    p = state_after(l, trail)
    past = {d: len(ap(p.f['server_at'], d).f['past']) for d in range(l.f['servers'] + 1)}
    d = DOMAIN
    every = sorted({s for of_server in k.sessions.values() for s in of_server})
    d['session'] = lambda env: sorted(k.sessions.get(env['server'], ())) + [0] if 'server' in env else every + [0]
    d['k'] = lambda env: range(past[env['server']] + 2)
    d['at'] = sorted({a.a[3] for a in trail if a.n in ANSWERED})
    d['sum'] = sorted({a.a[4] for a in trail if a.n == 'Counted'} | {0})
    d['About'] = [Con(n) for n in ('Counted', 'NotWhole', 'Range', 'Committed', 'RolledBack', 'Synced')]
    d['Lock'] = locks_in(k)
    d['Welcomed'] = [Rec({'session': a.a[2], 'epoch': a.a[3], 'kept': a.a[4]}) for a in trail if a.n == 'Told']
    del antt.FAILS[:]
    ok = ask(of('Wire', 'WireHolds')(l, trail, sent)) and ask(carried(k, p, sent))
    for n in ('session', 'k', 'at', 'sum', 'About', 'Lock', 'Welcomed'): d.pop(n, None)
    return None if ok else '; '.join(antt.FAILS[:8])
