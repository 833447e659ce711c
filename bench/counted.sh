# shellcheck shell=sh
# Read by the scripts of this folder that count the instructions of one command of the built program, which is `$command`. It wants `valgrind`.

# counted NAME: the instructions of the command on NAME.c
# shellcheck disable=SC2154
counted() { valgrind --tool=callgrind --callgrind-out-file=/dev/null "$program" "$command" "$1.c" 2>&1 >/dev/null | sed -n 's/.*Collected : \([0-9]*\).*/\1/p'; }

# told WHAT NAME: a row of NAME_1.c and NAME_2.c, which has twice the tasks, 60,000 of them
told() {
  awk -v what="$1" -v a="$(counted "$2_1")" -v b="$(counted "$2_2")" 'BEGIN { printf "%s | %.0f | %.2f\n", what, b / 60000, b / a }'
}

# chain NAME COUNT: writes NAME.c, with so many tasks in a chain
chain() {
  cat >"$1.c" <<PROGRAM
long x;
int main() {
  for (long i = 0; i < $2; i++)
#pragma oss task inout(x)
    x += i;
#pragma oss taskwait
  printf("%ld\\n", x);
}
PROGRAM
}
