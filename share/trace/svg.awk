# Draws a trace of nest6 as an SVG picture: a row for each task, a column for each wave.
#   nest6 trace FILE | share/trace/draw svg >FILE.svg
#
# A box is what a task does in a wave; a viewer tells how many acts that are, when the pointer stands on it. A line between two boxes says that
# the task waits, and a dashed line that it has done its last act and has still cells to give up.

END {
  measure()
  print_head()
  for (w = 1; w <= waves; w++) print_text(left_of(w) + wave_width / 2, 0, w, " class='wave'")
  for (i = 1; i <= tasks; i++) print_task(i, point[i])
  print_text(margin, tasks + 1, summary, "")
  print "</svg>"
}

# Lengths, in pixels. The numbers of the waves are row 0, the i-th task is row i.
function measure(   i, longest) {
  wave_width = 30
  row_height = 20
  letter_width = 8
  margin = 5
  for (i = 1; i <= tasks; i++) if (length(point[i]) > longest) longest = length(point[i])
  names_width = margin + letter_width * longest + margin
}

function left_of(w) {
  return names_width + wave_width * (w - 1)
}

function top_of(row) {
  return row_height * row
}

function print_head(   width, height) {
  width = left_of(waves + 1) + margin
  if (width < margin + letter_width * length(summary) + margin) width = margin + letter_width * length(summary) + margin
  height = top_of(tasks + 2)
  printf "<svg xmlns='http://www.w3.org/2000/svg' width='%d' height='%d' viewBox='0 0 %d %d'>\n", width, height, width, height
  print "<style>"
  print "text { font: 11px monospace } .wave { text-anchor: middle } .page { fill: white } .acts { fill: steelblue }"
  print ".waits { stroke: silver } .holds { stroke: steelblue; stroke-dasharray: 3 }"
  print "</style>"
  printf "<rect class='page' width='%d' height='%d'/>\n", width, height
}

function print_text(x, row, text, attributes) {
  printf "<text%s x='%d' y='%d'>%s</text>\n", attributes, x, top_of(row) + 14, text
}

function print_task(row, p,   w) {
  print_text(margin, row, p, "")
  print_line("waits", row, left_of(first_wave[p]), left_of(last_act[p] + 1))
  print_line("holds", row, left_of(last_act[p] + 1), left_of(last_wave[p] + 1))
  for (w = first_wave[p]; w <= last_act[p]; w++) if ((p, w) in acts) print_box(row, p, w)
}

# A line through the middle of a row; none where it would be a point.
function print_line(class, row, from, to,   y) {
  y = top_of(row) + row_height / 2
  if (from < to) printf "<line class='%s' x1='%d' x2='%d' y1='%d' y2='%d'/>\n", class, from, to, y, y
}

function print_box(row, p, w) {
  printf "<rect class='acts' x='%d' y='%d' width='%d' height='%d'>", left_of(w) + 1, top_of(row) + 4, wave_width - 2, row_height - 8
  printf "<title>task %s, wave %d: %s</title></rect>\n", p, w, counted(acts[p, w], "act")
}

function counted(number, name) {
  return sprintf("%.0f %s%s", number, name, number == 1 ? "" : "s")
}
