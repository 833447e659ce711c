# shellcheck shell=sh
# Read by built.sh, for the scripts of this folder that time the built program: the texts of programs that two or more of them run, each a function that
# writes the text to standard output.

# tasks_source GLOBALS COUNT CLAUSES STATEMENT: main creates COUNT tasks, with these clauses each, and the one with the number i does the statement
tasks_source() {
  cat <<PROGRAM
long $1;
int main() {
  for (long i = 0; i < $2; i++) {
#pragma oss task $3
    $4
  }
}
PROGRAM
}

# chain_source COUNT: tasks that each add to the same cell, one after the other
chain_source() { tasks_source x "$1" 'inout(x)' 'x = x + 1;'; }

# apart_source COUNT CELLS: tasks that each write a cell of their own, of so many
apart_source() { tasks_source "x[$2]" "$1" 'out(x[i])' 'x[i] = i;'; }

# ranked_source COUNT: the same, each with one of 1,000 priorities
ranked_source() { tasks_source "x[$1]" "$1" 'out(x[i]) priority(i * 7 % 1000)' 'x[i] = i;'; }

# ranges_source COUNT: tasks that each name 64 neighbouring cells, at random
ranges_source() {
  cat <<PROGRAM
long a[1048576];
int main() {
  unsigned long s = 7;
  for (long t = 0; t < $1; t++) {
    s = s * 6364136223846793005UL + 1442695040888963407UL;
    long at = (s >> 33) % 1048513;
#pragma oss task inout(a[at; 64])
    a[at] = a[at] + 1;
  }
}
PROGRAM
}

# weak_source COUNT: weak tasks in turn, each with 20 children on the cells of one array
weak_source() {
  cat <<PROGRAM
long a[20];
int main() {
  for (long t = 0; t < $1; t++) {
#pragma oss task weakinout(a)
    for (long i = 0; i < 20; i++) {
#pragma oss task inout(a[i])
      a[i] = a[i] + 1;
    }
  }
}
PROGRAM
}

# cuts_source COUNT: tasks on a whole array, and after these, once they are done, as many on one cell of it each
cuts_source() {
  cat <<PROGRAM
long a[$1];
int main() {
  for (long t = 0; t < $1; t++) {
#pragma oss task inout(a)
    a[0] = a[0] + t;
  }
#pragma oss taskwait
  for (long i = 0; i < $1; i++) {
#pragma oss task inout(a[i])
    a[i] = a[i] + 1;
  }
}
PROGRAM
}

# filled_source CELLS: main writes each cell of an array
filled_source() {
  cat <<PROGRAM
long x[$1];
int main() { for (long i = 0; i < $1; i++) x[i] = i; }
PROGRAM
}

# loops_source TURNS: 64 tasks that do not wait for each other, of so many turns each
loops_source() {
  cat <<PROGRAM
long x[64];
int main() {
  for (long t = 0; t < 64; t++) {
#pragma oss task out(x[t])
    {
      long s = 0;
      for (long i = 0; i < $1; i++) s = s + i * t;
      x[t] = s;
    }
  }
}
PROGRAM
}

# array_source TYPE CONVERSION TURNS: each turn writes an array of 1,000 cells of this type; the last cell is printed by the conversion
array_source() {
  cat <<PROGRAM
$1 a[1000];
int main() {
  for (long k = 0; k < $3; k++)
    for (long i = 0; i < 1000; i++) a[i] = a[i] * 3 + i;
  printf("$2\\n", a[999]);
}
PROGRAM
}

# calls_source NUMBER, calls_in_python NUMBER: calls in calls, which print this Fibonacci number
calls_source() {
  cat <<PROGRAM
long fibonacci(long n) { if (n < 2) return n; return fibonacci(n - 1) + fibonacci(n - 2); }
int main() { printf("%ld\\n", fibonacci($1)); }
PROGRAM
}
calls_in_python() {
  cat <<PROGRAM
def fibonacci(n):
    if n < 2:
        return n
    return fibonacci(n - 1) + fibonacci(n - 2)
print(fibonacci($1))
PROGRAM
}

# dependency_sources: the programs by which dependency systems are timed, as files: each once, and once with twice the tasks
dependency_sources() {
  for times in 1 2; do
    chain_source $((times * 20000)) >"chain_$times.c"
    apart_source $((times * 20000)) 40000 >"apart_$times.c"
    ranges_source $((times * 4096)) >"ranges_$times.c"
    weak_source $((times * 1000)) >"weak_$times.c"
  done
}

# dependency_rows: a row for each of these, by the script's own `row WHAT NAME`
dependency_rows() {
  row 'a chain of 20,000 tasks on one cell' chain
  row '20,000 tasks on cells of their own' apart
  row '4,096 tasks on 64 cells each at random' ranges
  row '1,000 weak tasks with 20 children each' weak
}

# growth_sources PART: the programs by which the growth of sequential runs is told, as files: each once, and once with twice the work. They do so small a
# part of the work: all of it where PART is 1, a tenth where it is 10, for a count that is not to take long.
growth_sources() {
  for times in 1 2; do
    cat >"ticks_$times.c" <<PROGRAM
int main() { long s = 0, i = 0; while (i < $((times * 300000 / $1))) { s = s + i * 3; i = i + 1; } printf("%ld\\n", s); }
PROGRAM
    tasks_source x $((times * 30000 / $1)) 'inout(x)' 'x = x + i;' >"tasks_$times.c"
    cat >"nested_$times.c" <<PROGRAM
long x;
#pragma oss task inout(*p)
void down(long *p, long n) { *p = *p + 1; if (n > 0) down(p, n - 1); }
int main() { for (long i = 0; i < $((times * 500 / $1)); i++) { down(&x, 50); } }
PROGRAM
    filled_source $((times * 200000 / $1)) >"cells_$times.c"
    tasks_source "a[$((times * 60000 / $1))]" $((times * 30000 / $1)) 'out(a[2 * i])' 'a[2 * i] = i;' >"lent_$times.c"
  done
}

# growth_rows ROW: a row for each of these, by `ROW WHAT NAME`
growth_rows() {
  "$1" 'ticks: 300,000 turns of a loop' ticks
  "$1" 'tasks of one creator: 30,000' tasks
  "$1" 'nested tasks: 500 chains of 51' nested
  "$1" 'cells of an array: 200,000 written' cells
  "$1" 'lent ranges: 30,000 single cells apart' lent
}
