# Reads a trace of nest6, for the tools that draw one. It writes nothing; the script `draw` puts it before one of them:
#   awk -f read.awk -f text.awk [TRACE]
#
# When the trace is read to its end, a tool finds there:
#   tasks, point[i]      the tasks that have acted, by their points: main first, then each task before those that it has created
#   waves                how many waves there are, counted from 1
#   acts[p, w]           how many acts the task at the point p does in the wave w; no entry if it does none
#   total[p]             how many it does in all waves
#   first_wave[p]        the first wave in which it acts
#   last_act[p]          the last wave in which it acts
#   last_wave[p]         the last wave in which it acts, gives up cells or joins slots
#   moves                how many lines `let` and `join` there are, in their order; of the k-th:
#   move_name[k], move_point[k], move_cell[k], move_count[k], move_wave[k]
#   summary              the last line of the trace, without its mark

$0 == "# wave " (waves + 1) { waves++; next }
/^step 0(\.[0-9]+)* [0-9]+$/ && waves { note_acts($2, $3); next }
/^(let|join) 0(\.[0-9]+)* [0-9]+ [0-9]+$/ && ($2 in first_wave) { note_move($1, $2, $3, $4); next }
/^# tasks [0-9]+ waves [0-9]+ widest [0-9]+$/ && !summary { summary = substr($0, 3); next }
{ refuse("line " NR " is none of a trace: " $0) }

# It comes before the END of a tool, which is not reached where this one ends the program.
END {
  if (refused) exit 1
  if (!summary) refuse("the trace does not come to its end: it lacks the line `# tasks T waves K widest M`")
  list_from("0")
}

function refuse(why) {
  print "nest6 trace: " why | "cat 1>&2"
  close("cat 1>&2")
  refused = 1
  exit 1
}

function note_acts(p, count) {
  if (!(p in first_wave)) {
    first_wave[p] = waves
    note_creation(p)
  }
  acts[p, waves] += count
  total[p] += count
  last_act[p] = last_wave[p] = waves
}

function note_move(name, p, cell, count) {
  moves++
  move_name[moves] = name
  move_point[moves] = p
  move_cell[moves] = cell
  move_count[moves] = count
  move_wave[moves] = waves
  last_wave[p] = waves
}

# Notes for the creator of the task at this point that it has created so many tasks. Main has none.
function note_creation(p,   place) {
  if (!match(p, /\.[0-9]+$/)) return
  place = substr(p, RSTART + 1) + 1
  p = substr(p, 1, RSTART - 1)
  if (place > created[p] + 0) created[p] = place
}

# Lists the task at this point, and then those that it has created. One that never acts has no line in the trace.
function list_from(p,   k) {
  if (p in first_wave) point[++tasks] = p
  for (k = 0; k < created[p] + 0; k++) list_from(p "." k)
}
