# shellcheck shell=sh
# Read by the scripts of this folder that time the built program. It finds and builds that program, the one that is handed over or that of this repository, as `$program`, and
# goes to a folder of its own, which is removed at the end.
top=$(CDPATH='' cd -- "$(dirname -- "$0")/.." && pwd) || exit 1
program=${1:-$top/nest6}
case $program in
  /*) ;;
  *) program=$PWD/$program ;;
esac
work=$(mktemp -d) || exit 1
trap 'rm -rf "$work"' EXIT
cd "$work" || exit 1
# shellcheck source=bench/sources.sh
. "$top/bench/sources.sh"
"$program" check /dev/null >/dev/null 2>&1
# the script of the top has built it now: what is counted and timed is the program, and not the script before it
[ "$program" != "$top/nest6" ] || program=$top/crates/nest6/out/nest6

# timed WORD..: the seconds that a call takes, the best of three
timed() {
  python3 - "$@" <<'PROGRAM'
import subprocess, sys, time
best = None
for _ in range(3):
    begin = time.monotonic()
    status = subprocess.call(sys.argv[1:], stdout=subprocess.DEVNULL, stderr=subprocess.DEVNULL)
    took = time.monotonic() - begin
    best = took if best is None or took < best else best
    if status:
        print("status", status, file=sys.stderr)
print("%.3f" % best)
PROGRAM
}

# serially NAME: the seconds of the sequential run of NAME.c
serially() { timed "$program" run --mode=serial --fuel=1000000000 "$1.c"; }

# interpreter: the path of CPython itself: what stands on the path may be a script that looks for it, and takes its time
interpreter() { python3 -c 'import sys; print(sys.executable)'; }

ratio() { awk -v a="$1" -v b="$2" 'BEGIN { printf "%.2f", a / b }'; }

# grown WHAT FIRST SECOND: a row with these seconds and their ratio
grown() { echo "$1 | $2 s | $3 s | $(ratio "$3" "$2")"; }
