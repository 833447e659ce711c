# Draws a trace of nest6 as text: a row for each task, a column for each wave.
#   nest6 trace FILE | share/trace/draw text
#
#   #   the task acts in this wave
#   -   it waits, and acts again in a later one
#   .   it has done its last act, and has still cells to give up
#
# The number at the end of a row counts the acts of the task.

END {
  measure()
  if (waves > 9) print_row("", tens(), "")
  print_row("wave", ones(), "acts")
  for (i = 1; i <= tasks; i++) print_row(point[i], marks(point[i]), sprintf("%.0f", total[point[i]]))
  print summary
}

# How wide the names at the left and the numbers at the right are.
function measure(   i) {
  name_width = length("wave")
  number_width = length("acts")
  for (i = 1; i <= tasks; i++) {
    name_width = larger(name_width, length(point[i]))
    number_width = larger(number_width, length(sprintf("%.0f", total[point[i]])))
  }
}

function larger(a, b) {
  return a > b ? a : b
}

# A row lacks the blanks at its end.
function print_row(name, columns, number,   row) {
  row = sprintf("%-" name_width "s %s  %" number_width "s", name, columns, number)
  sub(/ +$/, "", row)
  print row
}

# The tens of the numbers of waves, each above its one.
function tens(   w, row) {
  for (w = 1; w <= waves; w++) row = row (w % 10 ? " " : int(w / 10) % 10)
  return row
}

function ones(   w, row) {
  for (w = 1; w <= waves; w++) row = row (w % 10)
  return row
}

# The row of a task: a mark for each wave.
function marks(p,   w, row) {
  for (w = 1; w <= waves; w++) row = row mark(p, w)
  return row
}

function mark(p, w) {
  if ((p, w) in acts) return "#"
  if (w < first_wave[p] || w > last_wave[p]) return " "
  return w < last_act[p] ? "-" : "."
}
