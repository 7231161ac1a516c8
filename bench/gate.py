#!/usr/bin/env python3
"""Makes docs/GATE.md from the sources, and from the processor time that a gate took.

    bench/gate.py watch FILE COMMAND..    runs the command (.ci/run, say) and writes to FILE what each crate took
    bench/gate.py follow FILE PID         the same for a command that runs already; what it took before counts for
                                          processes that still run alone
    bench/gate.py page [--times FILE] [--cold TEXT] > docs/GATE.md

A line of FILE is a crate's name and its seconds of processor time; `all` and `clock` are of the whole command.
The kit prints no times, so `watch` adds up those of the processes below the command, once a second, by the crate
that each is about: its proofs, its must-fail edits and its tests.
"""

import os
import re
import subprocess
import sys
import time

TOP = os.path.dirname(os.path.dirname(os.path.abspath(__file__)))
EDITS_AT_MOST = (110, 150)
CRATES_WITH_TESTS_AT_MOST = 14
MINUTES_AT_MOST = (180, 300)

PAGE = """\
# The gate

`.ci/run` is a plain `rt ci`: every proof, every must-fail edit, every test, every program, on a clean clone. A first run on
a machine proves all; a later one proves what changed and what stands on it. The finished project's whole gate is to stay
under {minutes_all} processor minutes, 150 minutes on two cores, and today's under {minutes_now}.

This page is made by `bench/gate.py page`, whose head says how; edit the script and not the page. Functions are the `fn` lines of `src/`, with
those of traits and tests, but none that a macro or a derive makes. Edits are the files of `must-fail/`, tests the functions under `#[test]`.

{table}

Edits in all: {edits} of at most {edits_now} today and {edits_all} for the finished project. Crates with tests: {tested} of at most {tested_most}.

{times}

{cold}

A change in a low crate proves everything above it anew. The longest chain is {chain}.

{great}
"""


def text_of(path):
    with open(path, encoding="utf-8") as file:
        return file.read()


def listed():
    """The crates in the order of crates.txt, each with what it stands on."""
    crates = {}
    for line in text_of(f"{TOP}/crates.txt").split("\n"):
        name, colon, below = line.partition("#")[0].partition(":")
        if colon:
            crates[name.split()[0]] = below.split()
    return crates


def files(folder, ending):
    return [f"{at}/{name}" for at, _, names in os.walk(folder) for name in sorted(names) if name.endswith(ending)]


def counts(name):
    """What the sources of a crate have: functions, lines of source, edits, tests."""
    folder = f"{TOP}/crates/{name}"
    texts = [text_of(path) for path in files(f"{folder}/src", ".rt")]
    return {
        "functions": sum(len(re.findall(r"^ *(?:pub(?:\([a-z]+\))? )?(?:unsafe )?fn ", it, re.M)) for it in texts),
        "lines": sum(it.count("\n") for it in texts),
        "edits": len(files(f"{folder}/must-fail", ".edit")),
        "tests": sum(len(re.findall(r"^ *#\[test\]", it, re.M)) for it in texts),
    }


def chain(crates):
    """The names of the longest chain of crates, lowest first."""
    known = {}

    def up_to(name):
        if name not in known:
            known[name] = max((up_to(it) for it in crates[name] if it in crates), key=len, default=[]) + [name]
        return known[name]

    return max((up_to(it) for it in crates), key=len)


def minutes(seconds):
    return f"{seconds / 60:.1f}"


def table(crates, found, took):
    """The rows by crate, in the order of crates.txt, and the row of the totals."""
    heads = ["crate", "functions", "lines of source", "edits", "tests"] + (["processor minutes"] if took else [])
    rows = [heads, ["---"] * len(heads)]
    for name in crates:
        row = [f"`{name}`"] + [str(found[name][it]) for it in ("functions", "lines", "edits", "tests")]
        rows.append(row + ([minutes(took[name]) if name in took else ""] if took else []))
    sums = [str(sum(it[what] for it in found.values())) for what in ("functions", "lines", "edits", "tests")]
    rows.append(["all"] + sums + ([minutes(took.get("all", sum(took.get(it, 0) for it in crates)))] if took else []))
    return "\n".join("| " + " | ".join(row) + " |" for row in rows)


def times_line(took):
    if not took:
        return "Which crate takes how many minutes wasn't measured for this page (`bench/gate.py watch`)."
    what = "of a crate its proofs, its must-fail edits and the proofs of its tests"
    if "clock" not in took:
        return (
            f"The processor minutes are those of several runs, each of what was new: {what}. "
            f"The last row adds up those of the crates that have a time."
        )
    return (
        f"The processor minutes are those of one run: {what}, and in the last row also what belongs to no crate. "
        f"It took {minutes(took['clock'])} minutes by the clock."
    )


def great_line(found):
    great = [f"`{name}`" for name, it in found.items() if it["functions"] > 100 or it["lines"] > 1500]
    size = "the size that the project sets itself, 100 functions and 1,500 lines of source"
    return f"Above {size}: {', '.join(great)}." if great else f"No crate is above {size}."


def page(took, cold):
    crates = listed()
    found = {name: counts(name) for name in crates}
    return PAGE.format(
        table=table(crates, found, took),
        edits=sum(it["edits"] for it in found.values()),
        edits_now=EDITS_AT_MOST[0],
        edits_all=EDITS_AT_MOST[1],
        tested=sum(it["tests"] > 0 for it in found.values()),
        tested_most=CRATES_WITH_TESTS_AT_MOST,
        minutes_now=MINUTES_AT_MOST[0],
        minutes_all=MINUTES_AT_MOST[1],
        times=times_line(took),
        cold=cold or "No run from nothing was measured for this page.",
        chain=", ".join(f"`{it}`" for it in chain(crates)),
        great=great_line(found),
    )


def processes():
    """Each process: its parent, its seconds of processor time, and the crate that its words name, if they do."""
    tick, found = os.sysconf("SC_CLK_TCK"), {}
    for pid in filter(str.isdigit, os.listdir("/proc")):
        try:
            numbers = text_of(f"/proc/{pid}/stat").rpartition(")")[2].split()
            words = text_of(f"/proc/{pid}/cmdline").split("\0")
        except (OSError, UnicodeDecodeError):
            continue
        crate = words[words.index("--crate-name") + 1] if "--crate-name" in words[:-1] else ""
        # The number of its start tells a process from a later one with the same id.
        found[int(pid)] = (int(numbers[1]), (int(numbers[11]) + int(numbers[12])) / tick, crate, numbers[19])
    return found


def below(found, top):
    """The ids of the processes below this one, and its own."""
    ids, grown = {top} & set(found), True
    while grown:
        more = {pid for pid, (parent, *_) in found.items() if parent in ids} - ids
        ids, grown = ids | more, bool(more)
    return ids


def follow(top, is_over):
    """Adds up the processor time of the processes below this one until it is over."""
    last = {}
    while not is_over():
        found = processes()
        for pid in below(found, top):
            _, seconds, crate, start = found[pid]
            last[pid, start, crate] = seconds
        time.sleep(1)
    took = {}
    for (_, _, crate), seconds in last.items():
        took[crate] = took.get(crate, 0) + seconds
    return took


def write_times(path, took, clock):
    with open(path, "w", encoding="utf-8") as file:
        for crate in sorted(filter(None, took)):
            file.write(f"{crate} {took[crate]:.0f}\n")
        file.write(f"all {sum(took.values()):.0f}\nclock {clock:.0f}\n")


def read_times(path):
    return {name: float(seconds) for name, seconds in (line.split() for line in text_of(path).splitlines())}


def main(words):
    begun = time.monotonic()
    match words:
        case ["watch", path, *command] if command:
            child = subprocess.Popen(command, cwd=TOP)
            took = follow(child.pid, lambda: child.poll() is not None)
            write_times(path, took, time.monotonic() - begun)
            return child.returncode
        case ["follow", path, pid] if pid.isdigit():
            took = follow(int(pid), lambda: not os.path.exists(f"/proc/{pid}"))
            write_times(path, took, time.monotonic() - begun)
            return 0
        case ["page", *more] if len(more) % 2 == 0 and set(more[::2]) <= {"--times", "--cold"}:
            options = dict(zip(more[::2], more[1::2]))
            took = read_times(options["--times"]) if "--times" in options else {}
            sys.stdout.write(page(took, options.get("--cold")))
            return 0
    sys.stderr.write(__doc__)
    return 2


if __name__ == "__main__":
    sys.exit(main(sys.argv[1:]))
