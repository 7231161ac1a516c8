"""Runs worked rows by the definitions: `python3 rows.py [--moves FOLDER] [--machine] [--reasons] [--looks] [--account] [--wire] [--invariant] CASES ROW..` from the project's root."""
import os
import sys
import threading
import time
import antt
import rows_cluster
from rows_run import Runner
from rows_text import Script


def by_the_machine(layout):
    """The machine makes each move too, and the lists show it."""
    import rows_machine
    rows_machine.with_machine()
    machine = rows_machine.Machine(layout)

    def check(cluster, move, outs, acts):
        problem = machine.move(move, outs, acts)
        if problem is None:
            found = machine.differs(cluster.state)
            problem = '; '.join(found) if found else None
        if problem:
            raise AssertionError('move %d %r: %s' % (cluster.count, move, problem))
    return check


def run_row(folder, row, moves, checks):
    text = open(os.path.join(folder, 'row-%s.ecp' % row), encoding='latin1').read()
    wanted = open(os.path.join(folder, 'row-%s.out' % row), encoding='latin1').read()
    began = time.time()
    runner = Runner(Script(text), True, checks)
    runner.texts = text.split('\n')
    problem = None
    try:
        got = runner.run()
        for check in runner.c.checks:
            if hasattr(check, 'at_end'):
                check.at_end(runner.c)
                print('%-6s %d questions of %s' % (row, check.asked, type(check).__name__))
    except Exception as e:          # a move that isn't allowed or makes nothing is what is sought
        import traceback
        problem, got = '%s: %s' % (type(e).__name__, str(e)[:2000]), ''
        if os.environ.get('TRACE'):
            traceback.print_exc()
    if moves:
        with open(os.path.join(moves, 'row-%s.txt' % row), 'w') as out:
            out.write('# The script of the row\n\n%s\n\n# The moves, with their frames and acts\n\n%s\n\n# The whole output\n\n%s' % (text.strip(), '\n'.join(runner.told), got))
    same = got == wanted
    print('%-6s %s  %d moves  %.1f s%s' % (row, 'as printed' if same else 'DIFFERS', runner.c.count, time.time() - began, '  ' + problem if problem else ''), flush=True)
    if not same and not problem:
        import difflib
        for line in difflib.unified_diff(wanted.split('\n'), got.split('\n'), 'printed', 'by the definitions', lineterm='', n=1):
            print('    ' + line)
    return same


def main():
    args = sys.argv[1:]
    moves = None
    if args[0] == '--moves':
        moves, args = args[1], args[2:]
    checks = []
    if args[0] == '--machine':
        checks, args = [by_the_machine], args[1:]
    if args[0] == '--reasons':
        checks, args = checks + [rows_cluster.by_the_reasons], args[1:]
    if args[0] == '--looks':
        checks, args = checks + [rows_cluster.by_the_looks], args[1:]
    if args[0] == '--account':
        checks, args = checks + [rows_cluster.by_the_account], args[1:]
    if args[0] == '--wire':
        import rows_wire
        checks, args = checks + [rows_wire.WireCheck], args[1:]
    if args[0] == '--invariant':
        import rows_invariant
        checks, args = checks + [rows_invariant.InvariantCheck], args[1:]
    rows_cluster.answered_in_python()
    results = [run_row(args[0], row, moves, checks) for row in args[1:]]
    print('%d of %d as printed' % (sum(results), len(results)))
    if rows_cluster.by_the_looks in checks:
        print('%d of %d gets may be looks' % tuple(rows_cluster.LOOKS))
    if rows_cluster.by_the_account in checks:
        print('%d states accounted for, %d of them quiet' % tuple(rows_cluster.ACCOUNTS))
    if antt.CHECK:
        print('%d choices of which both sides hold' % len(antt.BOTH), *map(repr, antt.BOTH[:5]))


if __name__ == '__main__':
    sys.setrecursionlimit(1000000)
    threading.stack_size(1 << 29)
    thread = threading.Thread(target=main)
    thread.start()
    thread.join()
