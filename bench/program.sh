#!/bin/sh
# Builds and runs a bench program in a folder of its own, and prints its lines of times.
# usage: program.sh NAME CRATES LIBRARIES [COMMAND [WORD..]]: the program is bench/NAME.program, its modules are bench/NAME/*.program where there are some, and bench/NAME.proofs has its definitions
# and the proofs of its functions where there are some. It stands on LIBRARIES, and all that these stand on are CRATES.
# COMMAND is run, which proves all before, or try, which proves nothing and builds with tests of what is proved elsewhere, so that it is slower. The WORDs are those of the program's command line.
top=$(CDPATH='' cd -- "$(dirname -- "$0")/.." && pwd) || exit 1
work=$(mktemp -d) || exit 1
trap 'rm -rf "$work"' EXIT
mkdir -p "$work/crates/bench_$1/src" || exit 1
for crate in $2; do
  mkdir "$work/crates/$crate" || exit 1
  for part in src specs proofs; do
    [ ! -d "$top/crates/$crate/$part" ] || cp -r "$top/crates/$crate/$part" "$work/crates/$crate/" || exit 1
  done
  grep "^$crate:" "$top/crates.txt" >>"$work/crates.txt" || exit 1
done
cp "$top/HANDLES" "$work/HANDLES"
printf '%s\n' "bench_$1: $3" >>"$work/crates.txt"
cp "$top/bench/$1.program" "$work/crates/bench_$1/src/main.rt"
for module in "$top/bench/$1"/*.program; do
  [ ! -f "$module" ] || cp "$module" "$work/crates/bench_$1/src/$(basename "$module" .program).rt" || exit 1
done
if [ -f "$top/bench/$1.proofs" ]; then
  # each part of it is a file, named by the line before it
  awk -v to="$work/crates/bench_$1" '
    /^=== / { file = to "/" $2 ".antt"; folder = file; sub("/[^/]*$", "", folder); system("mkdir -p " folder); next }
    { print >file }' "$top/bench/$1.proofs" || exit 1
fi
cd "$work/crates/bench_$1" || exit 1
command=${4:-run}
shift "$(($# < 4 ? $# : 4))"
[ $# -eq 0 ] || set -- -- "$@"
rt "$command" "$@" >"$work/log" 2>&1
status=$?
if [ $status -ne 0 ] || ! grep -E ' ms$' "$work/log"; then
  cat "$work/log"
fi
exit $status
