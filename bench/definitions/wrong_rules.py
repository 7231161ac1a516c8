"""Wrong rules, one textual change each in a copy of the definitions: what notices each, and after how many moves.

`wrong_rules.py [NUMBER ..]`, from the project's root; `wrong_rules.py --run FOLDER NUMBER SECONDS` is one of them by itself.
"""
import os
import re
import shutil
import subprocess
import sys
import time

SCRATCH = os.environ.get('SCRATCH', '/tmp/runs')
RECOVERY = {'halt': 1.5, 'begin': 25, 'app broken': 0.5, 'server broken': 0.3, 'dial': 40, 'accept': 40, 'first': 60, 'join': 3}
REPEATS = {'halt': 3, 'begin': 80, 'save': 3, 'step': 12, 'join': 20, 'app broken': 1, 'server broken': 0.05, 'dial': 60, 'accept': 60, 'first': 80, 'tick': 0.1, 'app tick': 0.1, 'server tick': 0.1, 'noway': 0}
BREAKS = {'app broken': 1.5, 'server broken': 1, 'dial': 40, 'accept': 30, 'first': 60, 'join': 6, 'save': 6}
LOCKS = {'commands': {'Lock': 60, 'Unlock': 25, 'Set': 5, 'Get': 3}, 'save': 12}
READS = {'commands': {'Get': 40, 'Set': 30, 'Kill': 10, 'Incr': 8, 'Next': 6, 'Shape': 6}}
TRANSACTIONS = {'commands': {'Start': 15, 'Set': 40, 'Kill': 10, 'Get': 20, 'Commit': 6, 'Rollback': 10}}
BOTH_CLOSE = {'commands': {'Start': 25, 'Set': 40, 'Get': 50, 'Commit': 0.5, 'Rollback': 0.5, 'Lock': 0, 'Unlock': 0, 'Incr': 1, 'Sync': 1}, 'server broken': 3, 'app broken': 0.02,
              'tick': 1.5, 'server tick': 6, 'join': 0.05, 'app tick': 0.05, 'halt': 0.02, 'dial': 60, 'accept': 60, 'first': 80}
TWO = '2:0,0,1,1'
ONE = '1:0,0,1'


def both(*aims):
    out = {}
    for a in aims: out.update(a)
    return out


# name, [(text, text instead)], aim, shape
RULES = [
    ('Welcome of a new epoch not gated', [('replies (epoch_place b.state.order) (EpochWelcome', 'replies 0 (EpochWelcome')], REPEATS, ONE),
    ('Welcome of a new session not gated', [('replies (length b.state.order + 1) (NewWelcome', 'replies 0 (NewWelcome')], {'halt': 1, 'begin': 20, 'save': 2}, ONE),
    ('Grant not gated', [('replies (length b.state.order) (GrantOf', 'replies 0 (GrantOf')], both(LOCKS, {'save': 2}), ONE),
    ('Answer not gated', [('replies at (AnswerOf session about job w at sum)', 'replies 0 (AnswerOf session about job w at sum)'),
                          ('replies (length b.state.order) (AnswerOf session Synced', 'replies 0 (AnswerOf session Synced')], {'save': 2, 'commands': {'Incr': 30, 'Sync': 15}}, ONE),
    ('Reset not gated', [('waits_for_reset (Some conn) session at b = replies at (ResetOf', 'waits_for_reset (Some conn) session at b = replies 0 (ResetOf'),
                         ('pub after : c ≡ replies at (ResetOf', 'pub after : c ≡ replies 0 (ResetOf')], both(BREAKS, {'save': 2, 'tick': 3, 'server tick': 6}), ONE),
    ('s counts what is not synced', [('head_of d session = record { n = length d.order; w = count d.order session; s = count (take d.synced d.order) session }',
                                      'head_of d session = record { n = length d.order; w = count d.order session; s = count d.order session }')], both(RECOVERY, {'halt': 4, 'begin': 60, 'save': 1.5}), ONE),
    ('all Drops at the length with the entry', [('drop_head true d before session = head_before d before session', 'drop_head true d before session = head_of d session')], READS, ONE),
    ('notes kept behind a Close', [('noted = forgotten session d.noted', 'noted = d.noted')], both(READS, BREAKS, {'tick': 3, 'server tick': 6}), ONE),
    ('dials not compared', [('pub later : dial_of b.state app ≤ dial', 'pub later : 0 ≤ dial')], both(BREAKS, {'halt': 0.5, 'begin': 20, 'accept': 60}), ONE),
    ('a second waiting Hello kept', [('becomes (with_caller app conn) (drops_conn (waiting_conn b.state app) b)', 'becomes (with_caller app conn) b')],
     {'halt': 1, 'begin': 3, 'app broken': 4, 'app tick': 5, 'tick': 2, 'server tick': 0.1, 'step': 60, 'save': 1.5, 'dial': 40, 'accept': 40, 'first': 60}, ONE),
    ('cache kept over an epoch', [('      cache = [];\n      normal_due = true;', '      cache = s.cache;\n      normal_due = true;')], both(READS, RECOVERY), ONE),
    ('Grants kept over an epoch', [('ask_anew a = record a { put = false; at = None }', 'ask_anew a = record a { put = false }')], both(LOCKS, RECOVERY, {'step': 6, 'save': 25, 'app frame': 80, 'tick': 0.1}), ONE),
    ('locks go as the Close enters', [('    (cancels_all session\n    (becomes (unawaited session)', '    (lets_go session\n    (becomes (unawaited session)'),
                                      ('-- a session is closed; its end', '-- all of its locks go\nabbrev pub lets_go : ℕ → Sofar → Sofar\nlets_go session b = locks_become (gone_session b.state.locks session (length b.state.order)) b\n\n-- a session is closed; its end'),
                                      ('-- A Close enters: what a session had goes', 'use {without_session : Locks}.{without_session as gone_session}\n-- A Close enters: what a session had goes')],
     both(LOCKS, BREAKS, {'tick': 3, 'server tick': 6, 'save': 3}), ONE),
    ('the round ends with unsynced Closes', [('is_over r && not (list_any is_close (drop d.synced d.order))', 'is_over r')], both(RECOVERY, {'tick': 3, 'server tick': 6, 'save': 2}), ONE),
    ('one Done ends the round', [('without r session = record r { awaited = filter (is_another session) r.awaited }', 'without r session = record r { awaited = [] }')], RECOVERY, ONE),
    ('a Cancel that crosses its Grant frees nothing', [('cancels_granted (Some r) b = gives_back (holds_it r.who r.name r.mode b.state.locks.holds) r b', 'cancels_granted (Some r) b = b')],
     both(LOCKS, {'tick': 6, 'app frame': 15, 'save': 20}), ONE),
    ('a resend of the data end leaves one out', [('(resent (window_of b.state session) taken)', '(resent (window_of b.state session) (taken + 1))')], both(BREAKS, READS), ONE),
    ('a resend of the application end leaves one out', [('(resent (session_at b.state d).window taken)', '(resent (session_at b.state d).window (taken + 1))')], both(BREAKS, READS), ONE),
    ('kept of the last Epoch', [('place_of_epoch epoch 0 b.state.order ≡ Some kept', 'place_of_epoch (last_epoch b.state.order - 1) 0 b.state.order ≡ Some kept')], both(RECOVERY, {'halt': 3, 'save': 20}), ONE),
    ('owed items not sent again', [('to_send w s = with_all_owed s.owed (filter (is_above w) s.queue)', 'to_send w s = filter (is_above w) s.queue')],
     both(RECOVERY, {'commands': {'Incr': 40}, 'save': 15}), ONE),
    ('use not noted', [('uses_if (Some session) d w = in_job (with_used d (Some session)) w', 'uses_if (Some session) d w = w')], both(BREAKS, {'tick': 3, 'server tick': 6}), ONE),
    ('Drops to a session that closes in the same step are left out', [
        ('ticks_all now b = ticks (live_ends b.state.order) now b', 'ticks_all now b = ticks (live_ends b.state.order) now (unnotes (live_ends b.state.order) now b)'),
        ('-- at all that have a live session, by index', """-- those that this tick closes
abbrev pub unnotes : List LiveEnd → ℕ → Sofar → Sofar
unnotes [] now b = b
unnotes (x ∷ xs) now b =
    unnotes xs now (if hears_tick (link_of b.state x.app) (is_awaited b.state x.session) && is_free (data_next b.state.times now (link_of b.state x.app) Ticked)
    then becomes (λ d. record d { noted = unnoted x.session d.noted }) b else b)

-- at all that have a live session, by index"""),
        ('-- More of the order is synced, and the clock ticks.', 'use {forgotten : ℕ}.{forgotten as unnoted}\n-- More of the order is synced, and the clock ticks.')],
     BOTH_CLOSE, '1:0,1'),
    ('the same in the histories', [('downs_given true old new session = drops_until session (notes_of old session) (drop (length old.order) new.order)', 'downs_given true old new session = []')],
     BOTH_CLOSE, '1:0,1'),
]


def files(root):
    for crate in sorted(os.listdir(root)):
        d = os.path.join(root, crate, 'specs')
        for where, _, names in os.walk(d):
            for n in sorted(names):
                if n.endswith('.antt'): yield os.path.join(where, n)


def path_of(root, head):
    """The module in which a word is declared, by the beginning of its declaration."""
    for f in files(root):
        if ('abbrev pub ' + head) in open(f, encoding='utf8').read() and '/cluster_runs/' not in f and '/app_rules/' not in f:
            parts = os.path.relpath(f, root)[:-5].split(os.sep)
            return '.'.join(['Rattle'] + parts)
    raise SystemExit('nothing declares %s' % head)


def planted(number, to):
    name, edits, _, _ = RULES[number]
    if os.path.exists(to): shutil.rmtree(to)
    shutil.copytree('crates', to)
    for old, new in edits:
        new = re.sub(r'\{(\w+ : \w+)\}\.', lambda m: path_of(to, m.group(1)) + '.', new)
        hits = [f for f in files(to) if old in open(f, encoding='utf8').read()]
        if len(hits) != 1: raise SystemExit('%s: %d files have %r' % (name, len(hits), old))
        text = open(hits[0], encoding='utf8').read()
        open(hits[0], 'w', encoding='utf8').write(text.replace(old, new))


def run(number, seconds):
    import checks
    import random_moves
    name, _, aim, shape = RULES[number]
    began, moves, runs, seed = time.time(), 0, 0, 100 * number + 7
    while time.time() - began < seconds:
        d, found = random_moves.one_run(seed + runs, 250, shape, aim, every=50, check=checks.all_checks if CHECKS else None)
        moves += d.k.count
        runs += 1
        if found:
            print('NOTICED in run %d (seed %d), after %d moves of it, %d in all: %s' % (runs, seed + runs - 1, d.k.count, moves, found[:700].replace('\n', ' | ')))
            return
    print('NOT NOTICED in %d runs, %d moves' % (runs, moves))


CHECKS = bool(os.environ.get('CHECKS'))


def main():
    if len(sys.argv) > 1 and sys.argv[1] == '--run':
        import random_moves
        random_moves.threaded(lambda: run(int(sys.argv[3]), float(sys.argv[4])))
        return
    seconds = os.environ.get('SECONDS_EACH', '60')
    for n in [int(x) for x in sys.argv[1:]] or range(len(RULES)):
        to = os.path.join(SCRATCH, 'wrong_%d' % n)
        planted(n, to)
        done = subprocess.run([sys.executable, __file__, '--run', to, str(n), seconds], env={**os.environ, 'ANTT_ROOT': to}, capture_output=True, text=True)
        print('%2d %s: %s' % (n, RULES[n][0], (done.stdout.strip() or done.stderr[-600:]).strip()), flush=True)
        shutil.rmtree(to)


if __name__ == '__main__': main()
