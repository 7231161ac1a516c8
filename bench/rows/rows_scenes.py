"""The first worked run and short scenes as lists of moves in terms of the definitions: `python3 rows_scenes.py [--checks] FOLDER` from the project's root."""
import os
import sys
import threading
import rows_cluster
from antt import Con, Rec, apply, deref
from rows_cluster import word
from rows_run import Runner
from rows_text import Script
from rows_terms import changes, term


class Scene(Runner):
    """Moves one by one, told in terms."""
    checks = ()

    def __init__(self, text, keep=False):
        self.keep, self.terms, self.number = keep, [], 0
        super().__init__(Script(text), True, self.checks)
        self.texts = text.split('\n')
        self.flowing = True

    def move(self, move, what):
        before = self.c.state
        outs, acts = super().move(move, what)
        if self.keep:
            self.number += 1
            self.terms.append(self.term_of(self.number, what, move, outs, acts, before))
        return outs, acts

    def term_of(self, number, what, move, outs, acts, before):
        f, lines = outs.f, ['%d. %s' % (number, what), '   move     ' + term(move)]
        for name, label in (('answer', 'answer'), ('ups', 'ups'), ('downs', 'downs'), ('connects', 'connects'), ('app_cuts', 'app_cuts'), ('data_cuts', 'data_cuts')):
            if f[name] != () and not (isinstance(f[name], Con) and f[name].n == 'None'):
                lines.append('   %-9s%s' % (label, term(f[name])))
        if acts:
            lines.append('   acts     ' + term(acts))
        for change in changes(before, self.c.state):
            if not change.startswith('trail'):
                lines.append('   changes  ' + change)
        return '\n'.join(lines)

    def begins(self):
        """What was done so far makes the scene's first state."""
        self.flowing = False
        self.keep, self.first, self.told = True, self.c.state, []

    def step(self, job, line, text):
        outs, _ = self.move(Con('Step', (job, self.clock, line, self.s.command(text))), 'Step %s line %d: %s' % (self.s.jobs[job], line, text))
        self.app_outs(self.s.job_apps[job], outs)

    def look(self, job, line, text):
        self.move(Con('Looked', (job, line, self.s.command(text))), 'Looked %s line %d: %s' % (self.s.jobs[job], line, text))

    def time(self):
        self.clock += 1
        self.move(Con('Tick', (self.clock,)), 'Tick %d' % self.clock)

    def breaks(self, app, d):
        for w in self.pair(app, d):
            w.cut = True

    def halts(self, d):
        self.do_crash(0, self.s.servers[d])

    def begins_again(self, d):
        self.down.discard(d)
        self.begin(d, self.c.state.f['orders'][d].a[0][:self.disk[d]])

    def joins(self, app, d):
        self.app_move(app, 'Join %s' % self.s.servers[d], Con('Join', (d,)))

    def text(self, title, whole):
        for check in self.c.checks:
            if hasattr(check, 'at_end'):
                check.at_end(self.c)
        out = ['# ' + title, '', self.layout_text(), '']
        if whole:
            out += ['## The first state, in full', '', full(self.first), '']
        out += ['## The moves', ''] + ['\n\n'.join(self.terms)]
        out += ['', '## The same, shortly', ''] + self.told
        out += ['', '## The trail', '', term(self.c.state.f['trail']), '']
        return '\n'.join(out)

    def layout_text(self):
        return 'layout = ' + term(self.layout)


def full(state):
    """A state, field by field, each list's members on lines of their own."""
    lines = []
    for name, value in deref(state).f.items():
        value = deref(value)
        if isinstance(value, tuple) and value:
            lines.append('%s =' % name)
            lines += ['    %s ∷' % inner(x) for x in value] + ['    []']
        else:
            lines.append('%s = %s' % (name, term(value)))
    return '\n'.join(lines)


def inner(v):
    v = deref(v)
    wrapped = isinstance(v, Con) and v.n == 'Some' and isinstance(deref(v.a[0]), Rec)
    f = deref(v.a[0]).f if wrapped else v.f if isinstance(v, Rec) else None
    if f is None or len(f) < 7:
        return term(v, True)
    body = ';\n        '.join('%s = %s' % (k, term(x, False, k)) for k, x in f.items())
    return '%srecord {\n        %s }%s' % ('(Some (' if wrapped else '(', body, '))' if wrapped else ')')


HEAD = '''data D1
app A1
app A2
job J1 A1
job J2 A2
global ^x D1
global ^a D1
'''
ALONE = '''data D1
app A1
job J1 A1
global ^x D1
global ^a D1
'''


def prefix(head, text):
    r = Scene(head + text)
    r.run()
    r.out = []
    r.begins()
    return r


def cached_before_drop():
    r = prefix(HEAD, 'J2: get ^x\nJ1: get ^x\n')
    r.step(0, 10, 'set ^x 1')
    r.up(0, 0)
    r.step(1, 11, 'get ^x')
    r.look(1, 12, 'get ^x')
    r.downwards(1, 0)
    r.step(1, 13, 'get ^x')
    r.up(1, 0)
    r.downwards(1, 0)
    r.step(1, 13, 'get ^x')
    return r.text('A get is answered from a cached run after a Drop for it was put and has not arrived', True)


def cancel_crosses_grant():
    r = prefix(HEAD, 'J1: lock ^a\nJ2: lock ^a(1,2) wait 1\n')
    r.time()
    r.step(1, 9, 'lock ^a(1,2) wait 1')
    r.step(0, 10, 'unlock ^a')
    r.up(0, 0)
    r.downwards(1, 0)
    r.step(0, 11, 'lock ^a')
    r.up(0, 0)
    r.up(1, 0)
    r.downwards(0, 0)
    r.step(0, 11, 'lock ^a')
    return r.text('A lock whose Cancel crosses the Grant', True)


def recover_sends_again():
    r = prefix(ALONE, 'J1: get ^x\n')
    r.step(0, 7, 'set ^x 1')
    r.step(0, 8, 'set ^x 2')
    r.up(0, 0)
    r.save(0)
    r.breaks(0, 0)
    r.up(0, 0)
    r.downwards(0, 0)
    r.joins(0, 0)
    r.up(0, 0)
    r.downwards(0, 0)
    r.downwards(0, 0)
    r.downwards(0, 0)
    r.up(0, 0)
    return r.text('A Recover in the same epoch that sends again, both ways', True)


def crash_with_round():
    r = prefix(ALONE, 'J1: lock ^a\nhold\nJ1: set ^x 1\nup A1 D1\n')
    r.halts(0)
    r.begins_again(0)
    r.downwards(0, 0)
    r.joins(0, 0)
    r.up(0, 0)
    r.downwards(0, 0)
    r.up(0, 0)
    r.up(0, 0)
    r.up(0, 0)
    r.downwards(0, 0)
    r.save(0)
    return r.text('A crash with a round, a claim and an item sent again', True)


def first_run():
    text = 'data D1\napp A1\njob J1 A1\nglobal ^x D1\nJ1: set ^x 5\nJ1: get ^x\n'
    r = Scene(text, True)
    r.first = deref(apply(word('start'), (r.layout,)))
    r.run()
    r.told = [x for x in r.told]
    return r.text('The first worked run: set ^x 5, get ^x (from the beginning, `start layout`; moves 8 and 16 only wait and may be left out)', False)


def main():
    if sys.argv[1] == '--checks':
        import rows_invariant
        import rows_wire
        Scene.checks = (rows_invariant.InvariantCheck, rows_wire.WireCheck, rows_cluster.by_the_account, rows_cluster.by_the_reasons)
        del sys.argv[1]
    rows_cluster.answered_in_python()
    scenes = {'first_run': first_run, 'scene_cached_before_drop': cached_before_drop, 'scene_cancel_crosses_grant': cancel_crosses_grant,
              'scene_recover_sends_again': recover_sends_again, 'scene_crash_with_round': crash_with_round}
    for name in sys.argv[2:] or scenes:
        with open(os.path.join(sys.argv[1], name + '.txt'), 'w', encoding='utf8') as out:
            out.write(scenes[name]())
        print(name)


if __name__ == '__main__':
    sys.setrecursionlimit(1000000)
    threading.stack_size(1 << 29)
    thread = threading.Thread(target=main)
    thread.start()
    thread.join()
