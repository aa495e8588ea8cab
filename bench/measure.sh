# Read by the other scripts of this folder: how they measure, and a folder of their own.
top=$(cd "$(dirname "$0")/.." && pwd)
folder=$(mktemp -d)
trap 'rm -rf "$folder"' EXIT

# The program that scan.sh and parse.sh drive.
syntax_check() {
    program=$(realpath "${1:-$top/crates/syntax_check/out/syntax_check}")
    [ -x "$program" ] || { echo "build syntax_check first (rt run in its folder): $program is no program" >&2; exit 1; }
}

# For commands given as lines on standard input, a line each: the least seconds, the greatest kilobytes in memory and
# the last status. Each is run so many times (the first word), and all of them once in each round, so that what else
# the machine does touches all alike. A command that starts takes about 14,000 kilobytes at least.
measure() {
    python3 - "$1" <(cat) <<'PYTHON'
import os, shlex, subprocess, sys, time
commands = [shlex.split(line) for line in open(sys.argv[2])]
best = [(float("inf"), 0, 0)] * len(commands)
for _ in range(int(sys.argv[1])):
    for place, command in enumerate(commands):
        start = time.monotonic()
        process = subprocess.Popen(command, stdout=subprocess.DEVNULL, stderr=subprocess.DEVNULL)
        _, status, usage = os.wait4(process.pid, 0)
        seconds, peak, _ = best[place]
        best[place] = (min(seconds, time.monotonic() - start), max(peak, usage.ru_maxrss), os.waitstatus_to_exitcode(status))
for seconds, peak, status in best:
    print(f"{seconds:.4f} {peak} {status}")
PYTHON
}

# Says of lines "NAME SECONDS", of doubling sizes each, whether each time is at most 2.3 times the one before it.
# A time below 0.005 s is mostly that of starting, so that no step is judged by it.
judge() {
    awk '{ print $1 " " $2 ": " $3 " s" }
         $1 == name && before >= 0.005 && $3 > 2.3 * before { worse = 1 }
         { name = $1; before = $3 }
         END { print "each step at most 2.3 times the one before: " (worse ? "no" : "yes"); exit worse }'
}
