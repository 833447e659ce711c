# Makes of a trace of nest6 what a trace viewer reads, such as ui.perfetto.dev and chrome://tracing: the Trace Event Format, as JSON.
#   nest6 trace FILE | share/trace/draw json >FILE.json
#
# Each task has a track. A wave is a millisecond: what a task does in it takes nine tenths of that, whatever the number of its acts, and what it
# gives up or joins comes behind them. The number of acts is an argument of the slice.

END {
  print "{\"displayTimeUnit\": \"ms\", \"traceEvents\": ["
  event("'ph': 'M', 'name': 'process_name', 'pid': 1, 'args': {'name': 'nest6'}")
  for (i = 1; i <= tasks; i++) make_track(i, point[i])
  for (i = 1; i <= tasks; i++) for (w = 1; w <= waves; w++) if ((point[i], w) in acts) make_slice(point[i], w)
  for (i = 1; i <= moves; i++) make_mark(i)
  print "\n]}"
}

# Writes an event, whose text has ' in the place of ". A comma parts it from the one before it.
function event(text) {
  gsub(/'/, "\"", text)
  printf "%s{%s}", (events++ ? ",\n" : ""), text
}

# The track of the task at this point, which has its name, and its place among the tracks.
function make_track(place, p) {
  track[p] = place
  event("'ph': 'M', 'name': 'thread_name', " on_track(p) ", 'args': {'name': 'task " p "'}")
  event("'ph': 'M', 'name': 'thread_sort_index', " on_track(p) ", 'args': {'sort_index': " place "}")
}

function on_track(p) {
  return "'pid': 1, 'tid': " track[p]
}

# What the task at this point does in a wave.
function make_slice(p, w) {
  event("'ph': 'X', 'name': '" p "', " on_track(p) ", 'ts': " microseconds(w, 0) ", 'dur': 900, 'args': {'acts': " sprintf("%.0f", acts[p, w]) "}")
}

# What a task gives up or joins: the first cell, and how many.
function make_mark(k) {
  event("'ph': 'i', 's': 't', 'name': '" move_name[k] " " move_cell[k] " " move_count[k] "', " on_track(move_point[k]) ", 'ts': " microseconds(move_wave[k], 950))
}

# The time of so many microseconds within a wave.
function microseconds(w, within) {
  return sprintf("%.0f", 1000 * (w - 1) + within)
}
