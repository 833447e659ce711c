#!/bin/sh
# Times `check` and `run` of texts of about 1,000,000 bytes with the built program, and prints a row each: the text, the seconds
# and the status of `check`, those of `run`, and the most memory of the two in MiB. `bench/texts.sh PROGRAM` times another program.
# shellcheck source=bench/built.sh
. "$(dirname -- "$0")/built.sh"

# measured COMMAND FILE: seconds, status and MiB of one call
measured() {
  python3 - "$program" "$1" "$2" <<'PROGRAM'
import os, resource, subprocess, sys, time
begin = time.monotonic()
status = subprocess.call(sys.argv[1:], stdout=subprocess.DEVNULL, stderr=subprocess.DEVNULL)
end = time.monotonic()
print("%.2f %d %d" % (end - begin, status, resource.getrusage(resource.RUSAGE_CHILDREN).ru_maxrss // 1024))
PROGRAM
}

# row NAME FILE
row() {
  check=$(measured check "$2")
  run=$(measured run "$2")
  echo "$1 | check $check | run $run"
}

awk 'BEGIN { for (i = 0; i < 1000000; i++) printf " " }' >blanks.c
awk 'BEGIN { printf "int main(){"; for (i = 0; i < 1000000; i++) printf ";"; printf "}" }' >empty.c
awk 'BEGIN { for (i = 0; i < 80000; i++) printf "int x%06d;", i; printf "int main(){}" }' >globals.c
awk 'BEGIN { printf "int main(){\n"; for (i = 0; i < 60000; i++) printf "printf(\"%%d\",1);"; printf "}" }' >prints.c
awk 'BEGIN {
  print "long x;\nint main(){"
  for (i = 0; i < 17000; i++) print "#pragma oss task inout(x)\nx=x+1;\n#pragma oss taskwait"
  print "}"
}' >tasks.c
awk 'BEGIN { for (i = 0; i < 32000; i++) printf "void f%06d(){}\n", i; printf "int main(){}" }' >functions.c
awk 'BEGIN {
  printf "int x"
  for (i = 0; i < 60000; i++) printf ",x%05d", i
  print ";int main(){"
  for (i = 0; i < 30000; i++) print "#pragma oss task\n;"
  print "}"
}' >creations.c
awk 'BEGIN {
  letters = "abcdefghijklmnopqrstuvwxyzABCDEFGHIJKLMNOPQRSTUVWXYZ"
  printf "int "
  for (i = 0; i < 125000; i++) {
    name = substr(letters, int(i / 2704) + 1, 1) substr(letters, int(i / 52) % 52 + 1, 1) substr(letters, i % 52 + 1, 1)
    if (name == "int" || name == "for") name = name "0"
    printf "%s%s", (i ? "," : ""), name
  }
  print ";int main(){"
  for (i = 0; i < 28000; i++) print "#pragma oss task\n;"
  print "}"
}' >most_cells.c
awk 'BEGIN { printf "int main(){long a"; for (i = 0; i < 520000; i++) printf ",a"; printf ";}" }' >locals.c
awk 'BEGIN { printf "int main(){long p0"; for (i = 1; i < 64000; i++) printf ",p%d", i; printf ";}" }' >distinct_locals.c
awk 'BEGIN { printf "void f(long p0"; for (i = 1; i < 64000; i++) printf ",long p%d", i; printf "){}int main(){}" }' >parameters.c
awk 'BEGIN { printf "void f(){}int main(){f(1"; for (i = 0; i < 520000; i++) printf ",1"; printf ");}" }' >arguments.c

row 'blanks' blanks.c
row '1,000,000 empty statements' empty.c
row '80,000 globals, each in a declaration of its own' globals.c
row '60,000 calls of printf' prints.c
row '17,000 tasks, each with an assignment and a wait' tasks.c
row '32,000 functions' functions.c
row '60,000 globals and 30,000 empty tasks' creations.c
row '125,000 globals in one list and 28,000 empty tasks' most_cells.c
row 'one list of 520,000 locals, all named a' locals.c
row 'one list of 64,000 locals' distinct_locals.c
row 'a function of 64,000 parameters' parameters.c
row 'one call with 520,000 arguments' arguments.c
