#!/usr/bin/env python3
"""Runs the gate from nothing on a copy of what is committed, and prints what each crate costs: a row for each, the lowest first,
with processor seconds of its proof, of the proof with its tests, of the check that its edits begin with, of all its edits and
of the longest, and the MB of its largest process. Arguments are names of crates; with none all are measured. It stands outside
the gate. The seconds are those that the processes report, read twice a second, so other work beside it changes them little.
With --watch NUMBER it starts nothing, and measures the gate that is running as the process of this number, until that ends."""

import collections
import os
import re
import subprocess
import sys
import tempfile
import time

TOP = os.path.dirname(os.path.dirname(os.path.abspath(__file__)))
TICK = os.sysconf("SC_CLK_TCK")
COLUMNS = ("proof", "with tests", "edits' base", "edits", "longest", "MB")


def fields_of(pid):
    """The fields of a process behind its name, from its parent on."""
    with open(f"/proc/{pid}/stat", errors="replace") as line:
        return line.read().rsplit(")", 1)[1].split()[1:]


def below(gate):
    """The processes that the gate started, and those that these started, with their fields."""
    fields = {}
    for pid in filter(str.isdigit, os.listdir("/proc")):
        try:
            fields[pid] = fields_of(pid)
        except OSError:
            pass
    started = {str(gate)}
    for pid in sorted(fields, key=int):
        if fields[pid][0] in started:
            started.add(pid)
            yield pid, fields[pid]


def checks_of(gate):
    """The gate's checks that are running: for each its key, its arguments, its processor seconds and its MB."""
    for pid, fields in below(gate):
        try:
            with open(f"/proc/{pid}/cmdline", errors="replace") as words:
                arguments = words.read().split("\0")
        except OSError:
            continue
        if arguments[0].endswith("/rattle"):
            seconds = (int(fields[10]) + int(fields[11])) / TICK
            yield (pid, fields[18]), arguments, seconds, int(fields[20]) * os.sysconf("SC_PAGE_SIZE") >> 20


def kind_of(arguments):
    """The crate of a check, and which of its checks it is: `proof`, `with tests`, `edits' base`, or the number of an edit."""
    crate = arguments[arguments.index("--crate-name") + 1] if "--crate-name" in arguments else ""
    if "build" in arguments[:2]:
        return crate, "with tests" if "--test" in arguments else "proof"
    over = arguments[arguments.index("--incremental") + 1] if "--incremental" in arguments else ""
    found = re.search(r"/rt-edits-[^/]*/(seed|\d+)$", over)
    if not found:
        return crate, ""
    return crate, "edits' base" if found[1] == "seed" else int(found[1])


def watch(gate, is_running):
    """The seconds and the MB of each check of this gate, by crate, until it has ended."""
    checks = {}
    while is_running():
        for key, arguments, seconds, mb in checks_of(gate):
            kind, _, most = checks.get(key) or (kind_of(arguments), 0, 0)
            checks[key] = kind, seconds, max(mb, most)
        time.sleep(0.5)
    crates = collections.defaultdict(lambda: (collections.Counter(), [0]))
    for (crate, kind), seconds, mb in checks.values():
        if kind != "":
            crates[crate][0][kind] += seconds
            crates[crate][1].append(mb)
    return crates


def lines_of(crate):
    """How many lines of code, contracts and proofs the crate has, without its tests."""
    listed = subprocess.run(["git", "ls-files", f"crates/{crate}"], cwd=TOP, capture_output=True, text=True, check=True).stdout
    files = [it for it in listed.split() if it.endswith((".rt", ".antt")) and "/src/tests" not in it and "/tests.rt" not in it]
    return sum(open(f"{TOP}/{it}", "rb").read().count(b"\n") for it in files)


def show(crates, names):
    print(f"| crate | lines | {' | '.join(COLUMNS)} |\n|---|{'--:|' * (len(COLUMNS) + 1)}")
    sums = collections.Counter()
    for crate in names:
        seconds, most = crates[crate]
        edits = [of for kind, of in seconds.items() if isinstance(kind, int)]
        row = [seconds[it] for it in COLUMNS[:3]] + [sum(edits), max(edits, default=0), max(most)]
        sums.update(dict(zip(COLUMNS[:4], row)))
        print(f"| {crate} | {lines_of(crate)} | {' | '.join(f'{it:.0f}' for it in row)} |")
    print(f"| all | | {' | '.join(f'{sums[it]:.0f}' for it in COLUMNS[:4])} | | |")


def gate(names):
    """Runs the gate on a copy, and returns what its checks took."""
    with tempfile.TemporaryDirectory() as room:
        subprocess.run(["git", "clone", "-q", TOP, room], check=True)
        with open(f"{room}/gate.log", "w") as log:
            running = subprocess.Popen(["rt", "ci", "--anew", *names], cwd=room, stdout=log, stderr=subprocess.STDOUT)
            crates = watch(running.pid, lambda: running.poll() is None)
        with open(f"{room}/gate.log", errors="replace") as log:
            print(log.read().rstrip("\n").split("\n")[-1])
    return crates


def main():
    words = sys.argv[1:]
    with open(f"{TOP}/crates.txt") as listed:
        every = [line.split(":")[0] for line in listed if re.match("[a-z]", line)]
    start = time.monotonic()
    if words[:1] == ["--watch"]:
        crates, words = watch(words[1], lambda: os.path.exists(f"/proc/{words[1]}")), []
    else:
        crates = gate(words)
    show(crates, words or every)
    print(f"{(time.monotonic() - start) / 60:.0f} minutes in all")


main()
