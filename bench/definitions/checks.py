"""Parts of the invariant as Python checks of the state, by their names there: for wrong rules that no act, wire or mirror shows."""
from antt import ap, deref
from cluster import of, state_after
from wire import lane, told


def count(es, s): return of('Entries', 'count')(es, s)
def true_at(run, es, n):
    pairs = of('Fold', 'fold')(es[:n]).f['pairs']
    lo, hi = run.f['span'].f['lo'], run.f['span'].f['hi']
    return tuple((p.f['key'], p.f['value']) for p in run.f['pairs']) == tuple((k, v) for k, v in pairs if lo <= k < hi)


def meets(drop, span):
    lo, hi, a, b = drop.a[1], drop.a[2], span.f['lo'], span.f['hi']
    return lo < hi and a < b and a < hi and lo < b


def head(m): return m.a[0].f if m.n not in ('Welcome', 'Reset', 'Bare') else None


class View:
    """What the checks read of a run's state."""

    def __init__(self, k):
        self.k, self.c, self.p = k, k.c.f, state_after(k.l, k.c.f['trail'])

    def server(self, d):
        P = ap(self.p.f['server_at'], d).f
        return P, P['past'] + (P['order'],)

    def synced_at(self, d, j):
        """The synced number of an order, and that at its crash where it is past."""
        P, orders = self.server(d)
        if j == len(orders) - 1: return P['synced']
        return self.k.cut.get((d, j), 0)


def remember(k):
    """What was synced when an order ended is kept."""
    v = View(k)
    k.cut = getattr(k, 'cut', {})
    for d in range(k.l.f['servers']):
        P, orders = v.server(d)
        k.cut[d, len(orders) - 1] = P['synced']
    return v


def heads(v, d):
    """CO1."""
    P, orders = v.server(d)
    for s in v.k.sessions.get(d, ()):
        U, n = orders[-1], 0
        for m in lane(v.k.m, d, s, len(orders) - 1).f['down']:
            h = head(m)
            if h is None: continue
            if h['n'] < n or h['n'] > len(U): return 'CO1: n of %r' % (m,)
            if h['w'] != count(U[:h['n']], s): return 'CO1: w of %r' % (m,)
            if h['s'] > count(U[:P['synced']], s) or h['s'] > h['w']: return 'CO1: s of %r' % (m,)
            n = h['n']


def coherent(v, d):
    """CO2."""
    P, orders = v.server(d)
    for s in v.k.sessions.get(d, ()):
        held = []
        for m in lane(v.k.m, d, s, len(orders) - 1).f['down']:
            n = head(m)['n']
            if m.n == 'Drop': held = [r for r in held if not meets(m, r.f['span'])]
            if m.n == 'Block': held.append(m.a[1][0])
            for r in held:
                if not true_at(r, orders[-1], n): return 'CO2: %r at %r' % (r, m)


def closed(v, d):
    """CO5."""
    node = v.c['nodes'][d]
    if node.n == 'None': return
    for x in node.a[0].f['noted']:
        if not of('Entries', 'live')(node.a[0].f['order'], x.f['session']): return 'CO5: a note of %d' % x.f['session']
    for x in node.a[0].f['windows']:
        if not of('Entries', 'live')(node.a[0].f['order'], x.f['session']): return 'CO5: a window of %d' % x.f['session']


def waiting(v, d):
    """EN6."""
    node = v.c['nodes'][d]
    if node.n == 'None': return
    apps = [x.f['app'] for x in node.a[0].f['callers']]
    if len(set(apps)) < len(apps): return 'EN6: two Hellos of one application server wait'
    for a in apps:
        if of('Entries', 'live_session')(node.a[0].f['order'], a).n == 'Some': return 'EN6: its session is live'


def welcomes(v, d):
    """LI6 and LI8: the gate of a Welcome on its way, and its numbers."""
    P, orders = v.server(d)
    for x in v.c['dials']:
        if x.f['server'] != d or x.f['app_left']: continue
        for f in x.f['down']:
            m = f.f['message']
            if m.n != 'Welcome': continue
            its = deref(ap(ap(ap(v.k.m.f['site_at'], d).f['end_at'], x.f['app']).f['connection_at'], x.f['number']))
            j = its.a[0].f['its'].a[0].f['order']
            s, e = m.a[0], m.a[1]
            if of('Entries', 'last_epoch')(orders[j]) != e: return 'LI6: epoch'
            place = of('Places', 'epoch_place')(orders[j])
            if s < place and place > v.synced_at(d, j): return 'LI6: gate: %r' % (m,)
            if s > place and s > v.synced_at(d, j): return 'LI8: gate: %r' % (m,)
            if any(of('Entries', 'last_epoch')(o) == e for o in orders[j+1:]): return 'LI6: a later order has its number'
            end = v.c['apps'][x.f['app']].f['ends'][d].f['session']
            if end.n == 'Some' and end.a[0].f['number'] == s and end.a[0].f['epoch'] < e and not v.c['dead'][x.f['app']]:
                if m.a[3].f['w'] != count(orders[j], s): return 'LI6: w: %r' % (m,)
                want = of('Sessions', 'place_of_epoch')(end.a[0].f['epoch'], 0, orders[j])
                if want.n == 'None' or want.a[0] != m.a[2]: return 'LI6: kept: %r' % (m,)


def gates(v, d):
    """GA2: of Grants and Answers; LI9: of a Reset on its way."""
    P, orders = v.server(d)
    for s in v.k.sessions.get(d, ()):
        for j in range(len(orders)):
            for m in lane(v.k.m, d, s, j).f['down']:
                at = m.a[2] if m.n == 'Grant' else m.a[4] if m.n == 'Answer' else 0
                if at and (at > m.a[0].f['n'] or at > v.synced_at(d, j)): return 'GA2: %r' % (m,)
    for x in v.c['dials']:
        for f in x.f['down']:
            m = f.f['message']
            if x.f['server'] == d and m.n == 'Reset' and m.a[1] > P['synced']: return 'LI9: %r' % (m,)


def ends(v, d):
    for a, app in enumerate(v.c['apps']):
        s = app.f['ends'][d].f['session']
        if not v.c['dead'][a] and s.n == 'Some': yield a, s.a[0].f, told(v.k, a, d)


def caches(v, d):
    """FR2."""
    P, orders = v.server(d)
    for a, s, at in ends(v, d):
        for r in s['cache']:
            if not true_at(r, orders[at[1]], s['n']): return 'FR2: %r' % (r,)


def grants(v, d):
    """LO7."""
    P, orders = v.server(d)
    for a, s, at in ends(v, d):
        x = lane(v.k.m, d, s['number'], at[1]).f
        on_way = [(m.a[1], m.a[2]) for m in x['down'][x['down_taken']:] if m.n == 'Grant'] if s['window'].f['taken'] == x['down_taken'] else []
        for q in s['asks']:
            got = [n for t, n in on_way if t == q.f['ticket']] + ([q.f['at'].a[0]] if q.f['at'].n == 'Some' else [])
            if len(got) > 1: return 'LO7: two Grants of one Ask'
            if q.f['at'].n == 'Some' and not q.f['put']: return 'LO7: a held Grant whose Ask is not put in this epoch'
            if q.f['at'].n == 'Some':
                sent = [h for h in P['holds'] if of('PlainHolds', 'is_sent')(h) and h.f['session'] == s['number'] and h.f['job'] == q.f['job'] and h.f['at'] == got[0]]
                if len(sent) != 1: return 'LO7: %d sent holds for a held Grant' % len(sent)


def table(v, d):
    """LO3."""
    P, orders = v.server(d)
    node = v.c['nodes'][d]
    if node.n == 'None' or node.a[0].f['round'].n == 'Some': return
    have, want = {}, {}
    for h in node.a[0].f['locks'].f['holds']:
        w = h.f['who'].f
        have[w['session'], w['job'], h.f['mode'].n, h.f['name']] = h.f['count']
    for h in P['holds']:
        if of('PlainHolds', 'binds')(h):
            key = h.f['session'], h.f['job'], h.f['mode'].n, h.f['key']
            want[key] = want.get(key, 0) + 1
    if have != want: return 'LO3: the table has %r, and %r is in force' % (have, want)


def lanes(v, d):
    """LO5."""
    P, orders = v.server(d)
    node = v.c['nodes'][d]
    if node.n == 'None' or node.a[0].f['round'].n == 'Some': return
    c = len(orders) - 1
    for s in v.k.sessions.get(d, ()):
        if not of('Entries', 'live')(orders[c], s): continue
        S = ap(P['session_at'], s)
        if S.n == 'None' or S.a[0].f['told'] != c: continue
        x = lane(v.k.m, d, s, c).f
        words = []
        for m in x['up'][x['up_taken']:]:
            if m.n == 'Unlock': words.append((m.a[0], m.a[1].n, m.a[2]))
            if m.n == 'Cancel':
                q = next(u for u in x['up'] if u.n == 'Ask' and u.a[0] == m.a[0])
                words.append((q.a[1], q.a[2].n, q.a[3]))
        marks = [(h.f['given'].a[0].f['turn'], (h.f['job'], h.f['mode'].n, h.f['key'])) for h in P['holds'] if h.f['session'] == s and of('PlainHolds', 'binds')(h) and h.f['given'].n == 'Some']
        marks += [(q.f['given'].f['turn'], (q.f['job'], q.f['mode'].n, q.f['key'])) for q in P['quits'] if q.f['session'] == s]
        if words != [w for _, w in sorted(marks)]: return 'LO5: words %r, marks %r' % (words, sorted(marks))


def answers(v, d):
    """IT6."""
    P, orders = v.server(d)
    node = v.c['nodes'][d]
    if node.n == 'None': return
    c = len(orders) - 1
    for a, s, at in ends(v, d):
        n = s['number']
        if at != (n, c) or not of('Entries', 'live')(orders[c], n): continue
        x = lane(v.k.m, d, n, c).f
        found = [m.a[0] for m in x['up'][x['up_taken']:] if m.n in ('Add', 'Rollback') or (m.n == 'Commit' and m.a[3])]
        found += [r.f['says'].a[3] for r in node.a[0].f['replies'] if r.f['says'].n == 'AnswerOf' and r.f['says'].a[0] == n and r.f['says'].a[1].n != 'Synced']
        found += [m.a[3] for m in x['down'][x['down_taken']:] if m.n == 'Answer' and m.a[1].n != 'Synced']
        if sorted(found) != sorted(o.f['w'] for o in s['owed']): return 'IT6: owed %r, answers under way %r' % ([o.f['w'] for o in s['owed']], found)


def uses(v, d):
    """JO3."""
    P, orders = v.server(d)
    for a, s, at in ends(v, d):
        for j, b in enumerate(v.k.l.f['job_apps']):
            used = v.c['jobs'][j].f['used'][d]
            if b == a and ap(P['known_at'], j).f['acted'] and not (used.n == 'Some' and used.a[0] == s['number']): return 'JO3: job %d acted in session %d' % (j, s['number'])


def dials(v, d):
    """DI4: while a data server runs, the greatest dial taken never falls."""
    kept = v.k.__dict__.setdefault('greatest', {})
    node = v.c['nodes'][d]
    now = node.a[0].f['dials'] if node.n == 'Some' else None
    before, kept[d] = kept.get(d), now
    if now and before and any(a > b for a, b in zip(before, now)): return 'DI4: the greatest dial fell: %r to %r' % (before[:4], now[:4])


CHECKS = [dials, heads, coherent, closed, waiting, welcomes, gates, caches, grants, table, lanes, answers, uses]


def all_checks(k):
    v = remember(k)
    for d in range(k.l.f['servers']):
        for check in CHECKS:
            bad = check(v, d)
            if bad: return '%s (server %d)' % (bad, d)
