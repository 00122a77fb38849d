#!/bin/bash
# Prints what xdptool takes for long scripts, a row for each: how large the script is, and for each program processor
# milliseconds, the least of five runs, and the most MB in memory. Arguments are paths of programs, so that several builds are
# compared in one run; with none it is the one of this checkout. It stands outside the gate. Out goes to /dev/null, and a trace
# into a file that is thrown away. It needs python3 and GNU time.
set -euo pipefail
top=$(cd "$(dirname "$0")/.." && pwd)
[ $# -gt 0 ] || set -- "$top/crates/xdptool/out/xdptool"
work=$(mktemp -d)
trap 'rm -rf "$work"' EXIT
python3 - "$work" "$@" <<'END'
import os, random, sys

RUNS = 5
START = ["interface eth0 1", "xdp-filter load eth0", "xdp-filter ether 02:00:00:00:00:01", "xdp-filter port 53"]
work, programs = sys.argv[1], sys.argv[2:]
script, trace, peak = (os.path.join(work, name) for name in ("script.xdp", "trace", "peak"))
draw = random.Random(1)


def packet(size):
    """A packet of eth0: IPv4 from the fifteenth byte on, with any bytes."""
    frame = bytes.fromhex("020000000001020000000002" + "0800") + draw.randbytes(size)
    return "packet eth0 0 " + frame[:size].hex()


def packets(count, size):
    return START + [packet(size) for _ in range(count)]


def tables(lines, rules):
    return START[:2] + [f"xdp-filter ip 10.0.{n // 256}.{n % 256}" for n in range(rules)] + ["xdp-filter status"] * lines


def cost(words):
    """Processor milliseconds and MB of a run, with a small process in between, since else the MB of Python would count."""
    words = ["/usr/bin/time", "-f", "%M", "-o", peak, *words]
    out = os.open(os.devnull, os.O_WRONLY)
    pid = os.posix_spawn(words[0], words, os.environ, file_actions=[(os.POSIX_SPAWN_DUP2, out, 1)])
    os.close(out)
    _, status, used = os.wait4(pid, 0)
    if status != 0:
        sys.exit(f"{words}: status {os.waitstatus_to_exitcode(status)}")
    with open(peak) as file:
        return 1000 * (used.ru_utime + used.ru_stime), int(file.read()) / 1024


def row(name, options):
    cells = [name, f"{os.path.getsize(script) / 2**20:.1f}"]
    for program in programs:
        runs = [cost([program, *options, script]) for _ in range(RUNS)]
        cells += [f"{min(time for time, _ in runs):.0f}", f"{max(space for _, space in runs):.0f}"]
    print("| " + " | ".join(cells) + " |", flush=True)


for number, program in enumerate(programs, 1):
    print(f"{number}: {program}")
print("| script | MB |" + "".join(f" {number}: ms | MB |" for number in range(1, len(programs) + 1)))
print("|---|--:|" + "--:|--:|" * len(programs))
for count, size in [(65_532, 14), (65_532, 94), (5_564, 1_500), (528, 15_872)]:
    with open(script, "w") as file:
        file.write("\n".join(packets(count, size)) + "\n")
    row(f"{count:,} packets of {size:,} bytes", [])
    row("the same with a trace", ["--trace", trace])
with open(script, "w") as file:
    file.write("\n".join(tables(2_000, 4_096)) + "\n")
row("2,000 tables of 4,096 rules", [])
END
