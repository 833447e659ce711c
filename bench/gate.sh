#!/bin/sh
# What the gate costs, in processor seconds, user and system. A command, `.ci/run` where none is given, runs in a clean clone of what is committed: the
# whole gate, from nothing where the toolchain has kept nothing. `rt ci --anew` keeps those that keep what they have proved from taking it. Told are the seconds of all its processes, and the rows of
# docs/GATE.md: of each crate its proof, its proof with its tests, and the checks of its wrong bodies. These are read every second off the processes of this script's session,
# so that each may lack a second, and what runs in other sessions does not count. From nothing it takes half an hour and more, in which nothing else is to run.
top=$(cd "$(dirname -- "$0")/.." && pwd) || exit 1
[ "$#" != 0 ] || set -- .ci/run
room=$(mktemp -d) || exit 1
trap 'rm -rf "$room"' EXIT
git clone -q "$top" "$room/clone" || exit 1
cd "$room/clone" || exit 1

(
  "$@" >"$room/log" 2>&1
  echo "$?" >"$room/status"
  times >"$room/times"
) &
running=$!
begun=$(date +%s)
session=$(ps -o sid= -p "$running" | tr -d ' ')
while kill -s 0 "$running" 2>/dev/null; do
  ps -s "$session" -o pid=,cputimes=,args= 2>/dev/null | awk '/\/rattle (build|check) / {
    kind = / --test / ? "tests" : $4 == "check" ? "wrong" : "proof"
    for (i = 5; i < NF; i++) if ($i == "--crate-name") print $1, $(i + 1), kind, $2
  }' >>"$room/seen"
  sleep 1
done
ended=$(date +%s)

tail -n 1 "$room/log"
echo "status $(cat "$room/status"), $(((ended - begun) / 60)) minutes of clock"
# the second line of `times` tells the processes that have ended
awk -F '[ms ]+' 'NR == 2 { all = $1 * 60 + $2 + $3 * 60 + $4; printf "%d processor seconds, %d minutes\n", all, all / 60 + 0.5 }' "$room/times"
awk '
  FILENAME == ARGV[1] { if ($4 > most[$1, $2, $3]) { cost[$2, $3] += $4 - most[$1, $2, $3]; most[$1, $2, $3] = $4 } }
  # a program is proved by a check too: it counts as a wrong body only where its crate has some
  FILENAME == ARGV[2] && /^[a-z]/ {
    split($0, head, /[: ]/)
    names[++crates] = head[1]
    if (system("test -d crates/" head[1] "/must-fail")) { cost[head[1], "proof"] += cost[head[1], "wrong"]; cost[head[1], "wrong"] = 0 }
  }
  function told(name, kind) { all[kind] += cost[name, kind]; return cost[name, kind] ? cost[name, kind] : "–" }
  END {
    for (i = 1; i <= crates; i++) printf "| `%s` | %s | %s | %s |\n", names[i], told(names[i], "proof"), told(names[i], "tests"), told(names[i], "wrong")
    printf "%d minutes for proofs, %d with tests, %d for wrong bodies\n", all["proof"] / 60 + 0.5, all["tests"] / 60 + 0.5, all["wrong"] / 60 + 0.5
  }
' "$room/seen" crates.txt
