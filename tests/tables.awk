# Makes tries of the rows of the tables of a document; tests/tables.sh calls it, and tells what it is for.
#
# -v folder=FOLDER   where the tries are left: the files NUMBER.try, and for some NUMBER.out, the wanted output, and NUMBER.schedule
# -v usage=LINE      the usage line
# -v kinds_of_cases=WORDS   the kinds of refusals and faults of the cases of tests/cases
# -v porting_cases=WORDS    the names of the cases of tests/cases/porting
# It is called at the top of the repository.
# The lines of a file .try are read by tests/tables.sh:
#   row: FILE:LINE     where the row stands
#   shows: TEXT        what of it is tried
#   words: WORDS       the words of the call; '' is an empty one
#   status: N          the wanted status
#   has: PATTERN       a line that the output has, as an extended regular expression
#   err: LINE          the wanted line of the error output. Of several such lines one is wanted. Without such a line none is wanted.
#   program:           what stands behind this line is the program, to the end of the file
# On its output it writes a line for each row that is wrong or that it cannot try, as `wrong FILE:LINE: WHY`, and at last `rows` with the numbers of the tables and rows that
# it tries, of the rows that it does not, of the tables and rows that explain, and of the pieces of rows that it does not try.

BEGIN {
  # What is done with a table is told by its header. A table that only explains has no row that shows a text, a call or a message with what comes of it.
  explains("docs/LANGUAGE.md", "text | here | more")
  explains("docs/LANGUAGE.md", "step | what is judged | KIND | N")
  explains("docs/LANGUAGE.md", "offending token | KIND | N")
  explains("docs/LANGUAGE.md", "directive | meaning")
  explains("docs/LANGUAGE.md", "clause | meaning")
  explains("docs/LANGUAGE.md", "expression | kind")
  explains("docs/LANGUAGE.md", "place | allowed")
  explains("docs/LANGUAGE.md", "broken rule | its token")
  explains("docs/LANGUAGE.md", "conversion | writes")
  explains("docs/LANGUAGE.md", "statement | its acts, in this order")
  explains("docs/LANGUAGE.md", "clause | right to its cells")
  explains("docs/LANGUAGE.md", "the fault is in | its line")
  explains("docs/COMMANDS.md", "in an explanation | stands")
  explains("docs/COMMANDS.md", "the first lines | of")
  explains("docs/COMMANDS.md", "in a graph | stands")
  explains("docs/COMMANDS.md", "a line | says")

  tries("docs/LANGUAGE.md", "command | what it does with a text", "command")
  tries("docs/LANGUAGE.md", "topic | crate | definitions", "definitions")
  tries("docs/LANGUAGE.md", "keywords | what becomes of them", "keywords")
  tries("docs/LANGUAGE.md", "base | form | example | value", "number")
  tries("docs/LANGUAGE.md", "bytes | symbols", "symbols")
  tries("docs/LANGUAGE.md", "line | what it is", "line")
  tries("docs/LANGUAGE.md", "place | KIND | line", "place")
  tries("docs/LANGUAGE.md", "production | is one | is none, refused at", "production")
  tries("docs/LANGUAGE.md", "operators | example | is read as", "reading")
  tries("docs/LANGUAGE.md", "text | refusal", "refusal")
  tries("docs/LANGUAGE.md", "section | names | its base is", "section")
  tries("docs/LANGUAGE.md", "section of `long m[3][4];` | names", "section")
  tries("docs/LANGUAGE.md", "KIND | what is refused | breaks it | its neighbour", "rule")
  tries("docs/LANGUAGE.md", "the mistake | an example | refused at | its neighbour", "mistake")
  tries("docs/LANGUAGE.md", "operators | value", "values")
  tries("docs/LANGUAGE.md", "kind | when", "kind")
  tries("docs/LANGUAGE.md", "kind | of | when", "kind")
  tries("docs/LANGUAGE.md", "limit | value | beyond it", "limit")
  tries("docs/LANGUAGE.md", "program | `run` prints", "output")
  tries("docs/LANGUAGE.md", "program | `check` | `run`", "answer")
  tries("docs/COMMANDS.md", "words | what it does | on the output", "command")
  tries("docs/COMMANDS.md", "option | values | where nothing is said | what it says", "option")
  tries("docs/COMMANDS.md", "words | answer", "words")
  tries("docs/COMMANDS.md", "status | when | of | on the output | on the error output", "status")
  tries("docs/COMMANDS.md", "line | what the move is", "move")
  tries("docs/COMMANDS.md", "line | what it stands for", "link")
  tries("docs/COMMANDS.md", "KIND | what the program did", "kind")
  tries("docs/COMMANDS.md", "KIND | what is refused", "kind")
  tries("docs/PORTING.md", "the C program has | write | else | case", "change")
  tries("docs/PORTING.md", "text | C | nest6 | how to see it | case", "difference")
  tries("docs/PORTING.md", "step | what is changed | what `nest6 run` says then", "step")

  # The rows, or the pieces of rows, that cannot be tried, by what stands in them, and why.
  cannot("the 256th local in scope", "is told in words; the table of limits tries it")
  cannot("`taskwait on(` and 65 times `x`", "is told in words; the table of limits tries it")
  cannot("status 5", "the outputs must take nothing; tests/run.sh tries it")
  cannot("status 6", "memory must be wanting; tests/run.sh tries it")
  cannot("`soak` with status 1", "no generated program has a fault")
  cannot("`Lexical`, in words", "the cases of tests/cases/tokens try it, and the table of limits a number that is too large")
  cannot("`TooLarge`, in words", "the table of limits tries a name that is too long")
  # In the table of values a row without an example only explains.
  cannot("`+`, `-`, `*`, `<<`", "explains; `values/sums_wrap` and other cases try it")
  cannot("`&`, `|`, `^`", "explains; the cases of tests/cases/values try it")
  cannot("`/`, `%` where an operand is unsigned", "explains; the cases of tests/cases/values try it")
  cannot("`>>`", "explains; the cases of tests/cases/values try it")
  cannot("`<`, `<=`, `>`, `>=`", "explains; the cases of tests/cases/values try it")
  cannot("`==`, `!=`, `&&`, `||`", "explains; the cases of tests/cases/values try it")

  # Pieces of rows of docs/PORTING.md, with the first case of their row.
  cannot("sed, tokens/define", "is no text")
  cannot("static, grammar/left_out_static", "stands alone, for what is left out")
  cannot("break, grammar/left_out_goto", "stands alone for a way to write")
  cannot("taskgroup, implicit_wait_in_c", "stands alone, for what is left out")
  cannot("taskgroup, other_directives_in_c", "stands alone, for what is left out")
  cannot("collapse, loops/number_of_tasks", "stands alone, for what is left out")
  cannot("--fuel=N, long_task_in_c", "the case has it with a number")
  cannot("int x;, names/reduction_over_an_int", "the case has it with another name")
  cannot("reduction(+: x), names/reduction_over_an_int", "the case has it with another name")
  cannot("grainsize, task_loop_without_grainsize", "stands alone, for what is not there")
  cannot("long, values/sums_wrap", "stands alone, for a type")
}

# ---- what is told of a table by its header

function explains(page, header) { how[page, header] = "explain" }
function tries(page, header, kind) { how[page, header] = kind }
function cannot(shown, why) { reason[shown] = why }

# ---- small things

function wrong(why) { print "wrong " page ":" FNR ": " why }
function wrong_page(why) { print "wrong " page ": " why }

# a piece of a row that cannot be tried: right where it is listed
function give_up(shown) {
  if (shown in reason) {
    used[shown] = 1
    given_up++
  } else wrong("it cannot be tried, and is not listed: " shown)
}

function newlines(text) { return gsub(/\n/, "", text) }

function repeated(text, count,   result) {
  while (count > 0) {
    if (count % 2) result = result text
    text = text text
    count = int(count / 2)
  }
  return result
}

function is_letter(char) { return char ~ /^[A-Za-z0-9_]$/ }

# replaces each `name` of a text, taken as it stands
function replaced(text, name, value,   at, result) {
  while ((at = index(text, name)) > 0) {
    result = result substr(text, 1, at - 1) value
    text = substr(text, at + length(name))
  }
  return result text
}

# splits a row into cell[1..]; `\|` stands for a `|` in a cell. A cell that the row does not have is empty.
function read_cells(line,   i) {
  line = replaced(line, "\\|", "\001")
  sub(/^\| ?/, "", line)
  sub(/ *\|[ \t]*$/, "", line)
  cells = split(line, cell, /[ \t]*\|[ \t]*/)
  for (i = 1; i <= cells; i++) gsub(/\001/, "|", cell[i])
  for (; i <= 5; i++) cell[i] = ""
}

# splits a text at its backquotes: part[2], part[4] and so on are code
function read_parts(text) { parts = split(text, part, /`/) }

# the piece of this number of a text that is split at its backquotes; the first code is number 2
function part_of(text, which_part,   list) {
  return which_part <= split(text, list, /`/) ? list[which_part] : ""
}

# what a cell writes out: its code one after the other, with the newlines and tabs that it names
function text_of(shown,   i, result) {
  read_parts(shown)
  for (i = 1; i <= parts; i++) {
    if (i % 2 == 0) result = result part[i]
    else if (part[i] ~ /a newline/) result = result "\n"
    else if (part[i] ~ /a tab/) result = result "\t"
  }
  return result
}

# whether a cell is code and nothing else
function is_code(shown) { return shown ~ /^`[^`]*`$/ }

# ---- tries

# begins a try; what is wanted of it is added by `want_err`, `want_line` and `want_out`, and its program by `put`, which ends it
function begin_try(shown, words, status) {
  number++
  file = sprintf("%s/%05d", folder, number)
  try_file = file ".try"
  print "row: " page ":" FNR >try_file
  print "shows: " substr(replaced(shown, "\n", " "), 1, 100) >try_file
  print "words: " words >try_file
  print "status: " status >try_file
  tried_pieces++
}

# A text may be longer than what `printf` takes, so it is written by `print`.
function write(text, to) {
  ORS = ""
  print text >to
  ORS = "\n"
  close(to)
}

function want_line(pattern) { print "has: " pattern >try_file }
function want_err(line) { print "err: " line >try_file }
function want_out(text) { write(text, file ".out") }
function put_schedule(text) { write(text, file ".schedule") }
function put(text) { write("program:\n" text, try_file) }

function try_accepted(shown, text) {
  begin_try(shown, "check p.c", 0)
  want_out("ok\n")
  put(text)
}

function try_refused(shown, text, line) {
  begin_try(shown, "check p.c", 3)
  want_out("")
  want_err(line)
  put(text)
}

function try_prints(shown, text, output) {
  begin_try(shown, "run p.c", 0)
  want_out(output)
  put(text)
}

# ---- where a piece of a text stands

# Puts each `token` of a text on a line of its own, and returns that text; token_line[1..token_count] are these lines. A backslash with a newline behind it is a blank in
# a pragma too. The token `"` stands for each string; other tokens are not looked for in strings.
function set_apart(text, token,   result, at, size, found, line) {
  token_count = 0
  line = 1
  for (at = 1; at <= length(text); at += size) {
    size = 1
    found = 0
    if (match(substr(text, at), /^"([^"\\]|\\.)*"/)) {
      size = RLENGTH
      found = token == "\""
    } else if (substr(text, at, length(token)) == token) {
      # a word is none in a longer word
      found = !is_letter(substr(token, 1, 1)) || !(at > 1 && is_letter(substr(text, at - 1, 1))) && !is_letter(substr(text, at + length(token), 1))
      if (found) size = length(token)
    }
    if (found) {
      token_line[++token_count] = ++line
      result = result "\\\n" substr(text, at, size) "\\\n"
      line++
    } else {
      result = result substr(text, at, size)
      line += newlines(substr(text, at, size))
    }
  }
  return result
}

# tries that a piece of a text, between `before` and `after`, is refused as a kind at its `token`: the one of this number, the last one where it is -1, or one of them where it
# is 0
function try_refused_at(shown, kind, before, piece, after, token, which,   text, i) {
  if (token == "end of its line") {
    try_refused(shown, before piece "\\\n" after, "refused: " kind " at line " newlines(before piece) + 2)
    return
  }
  text = set_apart(piece, token)
  if (which == -1) which = token_count
  if (token_count == 0 || which > token_count) {
    wrong("there is no such token as that at which it is refused: " piece)
    return
  }
  begin_try(shown, "check p.c", 3)
  want_out("")
  for (i = 1; i <= token_count; i++) if (which == 0 || which == i) want_err("refused: " kind " at line " newlines(before) + token_line[i])
  put(before text after)
}

# Reads from part[i] on where something is refused, as in "at `x`", "at the second `x`", "at the string" and "at the end of its line": sets `token` and `which`, and
# returns the number of the part up to which it has read, or 0.
function read_place(i) {
  which = part[i] ~ /first/ ? 1 : part[i] ~ /second/ ? 2 : part[i] ~ /third/ ? 3 : part[i] ~ /last/ ? -1 : 0
  if (part[i] ~ /the end of its line/) { token = "end of its line"; return i }
  if (part[i] ~ /string/) { token = "\""; return i }
  if (i + 1 > parts || part[i] !~ /^( at |, at )?(the )?((first|second|third|last) )?$/) return 0
  token = part[i + 1]
  return i + 1
}

# ---- LANGUAGE.md: the first tables

# A command with its words runs to its end.
function row_command(   words) {
  if (part_of(cell[1], 2) !~ /^nest6 /) { give_up(cell[1]); return }
  words = substr(part_of(cell[1], 2), 7)
  words = replaced(replaced(replaced(replaced(words, "FILE", "a.c"), "SCHEDULE", "s.txt"), "NUMBER", "7"), "SIZE", "9")
  begin_try(words, words, 0)
  if (part_of(cell[3], 2) == "tasks T") want_line("^tasks [0-9]+$")
  if (cell[3] ~ /^`ok` and a newline/) want_out("ok\n")
  if (cell[3] ~ /or `no fault` and a newline/) want_out("no fault\n")
  put("")
}

# Each definition is a page of its crate.
function row_definitions(   i, path, line) {
  read_parts(cell[3])
  for (i = 2; i <= parts; i += 2) {
    tried_pieces++
    path = "crates/" replaced(cell[2], "`", "") "/specs/" part[i] ".antt"
    if ((getline line <path) < 0) wrong("there is no such page: " path)
    close(path)
  }
}

# ---- LANGUAGE.md: tokens

# Keywords are no names; those that the language leaves out are refused wherever they stand.
function row_keywords(   i, kind) {
  kind = cell[2] ~ /`Unsupported`/ ? "Unsupported" : "Syntax"
  read_parts(cell[1])
  for (i = 2; i <= parts; i += 2) try_refused_at(part[i] " as a name", kind, "int main() { }\nlong ", part[i], ";\n", part[i], 0)
}

function row_number() {
  if (!is_code(cell[3])) { give_up(cell[3]); return }
  try_prints(cell[3], "int main() { printf(\"%lu\", " text_of(cell[3]) "); }", cell[4])
}

function row_symbols(   list, count, i, kind) {
  count = split(text_of(cell[2]), list, / /)
  for (i = 1; i <= count; i++) {
    if (length(list[i]) != cell[1]) wrong("it has not so many bytes: " list[i])
    kind = list[i] == "?" || list[i] == "." || list[i] == "->" ? "Unsupported" : "Syntax"
    # The program before it is whole, so what is refused is the symbol itself.
    try_refused_at(list[i], kind, "int main() { } ", list[i], "", list[i], 0)
  }
}

# The lines that begin with `#`: what is skipped is accepted, a directive is refused, and a pragma without a further word is one that is not known.
function row_line(   i) {
  read_parts(cell[1])
  if (cell[2] ~ /^skipped/) try_accepted(part[2], part[2] " <a\\\nint main() { }\n")
  else if (cell[2] ~ /`Unsupported`/) for (i = 2; i <= parts; i += 2) try_refused(part[i], part[i] "\nint main() { }\n", "refused: Unsupported at line 1")
  else if (parts >= 4) try_refused(cell[1], part[2] " " part[4] "\nint main() { }\n", "refused: BadPragma at line 1")
  else give_up(cell[1])
}

# What begins no token is refused on its line. "its" stands before what is not there.
function row_place(   i) {
  read_parts(cell[1])
  if (parts == 1) give_up(cell[2] ", in words")
  for (i = 2; i <= parts; i += 2)
    if (part[i - 1] !~ /its $/) try_refused(part[i], "int main() {\n} " part[i], "refused: " replaced(cell[2], "`", "") " at line 2")
}

# ---- LANGUAGE.md: grammar

# Sets `before` and `after` so that a piece of text between them is one of this production in a program. Returns whether the production is known.
function place_production(production, piece,   names, in_main, in_head) {
  names = "long x, y, z, a[4], m[3][4];\nvoid f(long u, long v) { }\n"
  in_main = names "int main() {\nlong i, l, n = 1, u = 1, *p = a;\n"
  before = after = ""
  if (production == "globals" || production == "function") after = "\nint main() { }\n"
  else if (production == "type") after = (piece ~ /;$/ ? "" : " g;") "\nint main() { }\n"
  else if (production == "parameters") {
    if (piece !~ /\(/) { before = "void g("; after = ") { }" }
    after = after "\nint main() { }\n"
  } else if (production == "block" || production == "statement" || production == "simple" || production == "target") {
    before = in_main
    after = (piece ~ /[;}]$/ ? "" : production == "target" ? " = 1;" : ";") "\n}\n"
  } else if (production == "head") {
    in_head = piece ~ /^(for|while) / ? "" : piece ~ /</ ? "for (long k = 0; " : "for (long k = 0; k < 4; "
    before = in_main "#pragma oss taskloop\n" in_head
    after = " ;\n}\n"
  } else if (production == "task" || production == "taskwait" || production == "release") {
    before = in_main "#pragma oss "
    after = "\n;\n}\n"
    if (piece ~ /^taskwait|^release/) after = "\n}\n"
  } else if (production == "taskloop") {
    before = in_main "#pragma oss "
    after = "\nfor (long k = 0; k < 4; k++) ;\n}\n"
  } else if (production == "clause") {
    before = in_main "#pragma oss task "
    after = "\n;\n}\n"
  } else if (production == "section") {
    before = in_main "#pragma oss task in("
    after = ")\n;\n}\n"
  } else return 0
  return 1
}

function is_in_a_pragma(production) { return production ~ /^(task|taskloop|taskwait|release|clause|section)$/ }

function row_production(   i, next_part, piece, kind) {
  kind = is_in_a_pragma(cell[1]) ? "BadPragma" : "Syntax"
  read_parts(cell[2])
  for (i = 2; i <= parts; i += 2) {
    if (!place_production(cell[1], part[i])) { wrong("a production that is not known: " cell[1]); return }
    try_accepted(part[i], before part[i] after)
  }
  read_parts(cell[3])
  for (i = 2; i <= parts; i = next_part + 2 - next_part % 2) {
    piece = part[i]
    next_part = read_place(i + 1)
    if (!next_part) { wrong("it is not told where this is refused: " piece); return }
    place_production(cell[1], piece)
    try_refused_at(piece " at " token, kind, before, piece, after, token, which)
  }
}

# Both sides have one value for many numbers, also for such as another reading would tell apart.
function row_reading(   left, right) {
  if (!is_code(cell[2]) || !is_code(cell[3])) { give_up(cell[2]); return }
  left = text_of(cell[2])
  right = text_of(cell[3])
  try_prints(left, "int main() {\nlong a, b, c, others;\nfor (a = -3; a < 4; a++) for (b = 0; b < 6; b++) for (c = 0; c < 6; c++)\n" \
    "if ((" left ") != (" right ")) others++;\nprintf(\"%ld\", others);\n}\n", "0")
}

# ---- LANGUAGE.md: refusals

function row_refusal(   text, message) {
  text = text_of(cell[1])
  read_parts(cell[2])
  message = part[2]
  try_refused(cell[1], text, "refused: " message)
  # Where the row names a token, it is this one. The `#` of a pragma must stand where it stands.
  if (read_place(3) && token != "#") {
    sub(/ at line.*/, "", message)
    try_refused_at(cell[1] " at " token, message, "", text, "", token, which)
  }
}

# Sets `before` and `after` to where a piece of a text stands in the tables of rules and of mistakes. A whole text has a function `main`. A piece of a pragma, or the head of a
# task loop, says so by its form. Each piece else stands for HERE of the block of code before the table.
function place_rule(piece,   at) {
  before = after = ""
  if (piece == "" || piece ~ /main\([a-z ]*\) *\{/) return
  at = index(block, "HERE")
  if (!at) wrong("there is no block with HERE before the table")
  before = substr(block, 1, at - 1)
  after = substr(block, at + 4)
  if (before ~ /#pragma oss $/) return
  if (piece ~ /^(task|taskloop|taskwait|release)( |$)/) {
    before = before "#pragma oss "
    after = "\n;" after
  } else if (piece ~ /^for \(.*\)$/) {
    before = before "#pragma oss taskloop\n"
    after = " ;" after
  }
}

function row_rule(   piece) {
  if (cell[1] != "") last_kind = text_of(cell[1])
  if (cell[3] != "an empty file" && !is_code(cell[3])) { give_up(cell[3]); return }
  piece = text_of(cell[3])
  place_rule(piece)
  try_refused(cell[3], before piece after, "refused: " last_kind " at line " newlines(before) + 1)
  piece = text_of(cell[4])
  place_rule(piece)
  try_accepted(cell[4], before piece after)
}

function row_mistake(   piece, at_token, at_which) {
  read_parts(cell[3])
  if (!read_place(1)) { wrong("it is not told where this is refused: " cell[2]); return }
  at_token = token
  at_which = which
  piece = text_of(cell[2])
  place_rule(piece)
  try_refused_at(cell[2] " at " cell[3], "WrongKind", before, piece, after, at_token, at_which)
  piece = text_of(cell[4])
  place_rule(piece)
  try_accepted(cell[4], before piece after)
}

# Each section is one of a clause, and the task that names it begins.
function row_section(   i) {
  read_parts(cell[1])
  for (i = 2; i <= parts; i += 2)
    try_prints("in(" part[i] ")", "long x, a[4], m[3][4];\nint main() {\nlong e, l, n = 1, u = 1, *p = a;\n#pragma oss task in(" part[i] ")\n;\n}\n", "")
}

# ---- LANGUAGE.md: values, kinds and limits

# "`EXPRESSION` is NUMBER" in the words of a row is an example.
function row_values(   i, found, value) {
  read_parts(cell[2])
  for (i = 2; i < parts; i += 2)
    if (match(part[i + 1], /^ is -?[0-9]+/)) {
      value = substr(part[i + 1], 5, RLENGTH - 4)
      try_prints(part[i], "int main() { printf(\"%ld\", " part[i] "); }", value)
      found = 1
    }
  if (!found) give_up(cell[1])
}

# Each kind is one that a case of tests/cases tells.
function row_kind() {
  if (cell[1] == "") return
  tried_pieces++
  if (!(text_of(cell[1]) in kind_of_a_case)) wrong("no case of tests/cases has this kind: " cell[1])
  kind_of_a_row[page, text_of(cell[1])] = 1
}

# A limit: a text that has as many as are allowed is accepted, or runs to its end, and one that has one more is refused, or has the fault.
function row_limit(   value, within, beyond, message, line) {
  value = cell[2]
  if (value ~ /^[0-9,]+/) {
    match(value, /^[0-9,]+/)
    value = substr(value, 1, RLENGTH)
    gsub(/,/, "", value)
  }
  line = 1
  if (cell[1] ~ /file/) {
    within = "int main() { }" repeated(" ", value - 14)
    beyond = within " "
  } else if (cell[1] ~ /name/) {
    within = "long " repeated("a", value) "; int main() { }"
    beyond = "long " repeated("a", value + 1) "; int main() { }"
  } else if (cell[1] ~ /number/ && value == "less than 2^64") {
    within = "int main() { printf(\"%lu\", 18446744073709551615); }"
    beyond = "int main() { printf(\"%lu\", 18446744073709551616); }"
  } else if (cell[1] ~ /level.* statement/) {
    within = "int main() {" repeated("{", value - 1) ";" repeated("}", value)
    beyond = "int main() {" repeated("{", value) ";" repeated("}", value + 1)
  } else if (cell[1] ~ /level.* expression/) {
    within = "long x; int main() { x = " repeated("(", value - 1) "1" repeated(")", value - 1) "; }"
    beyond = "long x; int main() { x = " repeated("(", value) "1" repeated(")", value) "; }"
  } else if (cell[1] ~ /operators/) {
    within = "long x; int main() { x = 1" repeated(" + 1", value) "; }"
    beyond = "long x; int main() { x = 1" repeated(" + 1", value + 1) "; }"
  } else if (cell[1] ~ /cells/) {
    within = "long a[" value - 1 "], z; int main() { }"
    beyond = "long a[" value "], z; int main() { }"
  } else if (cell[1] ~ /locals/) {
    within = "int main() { long " locals(value) "; }"
    beyond = "int main() { long " locals(value + 1) "; }"
  } else if (cell[1] ~ /sections/) {
    line = 3
    within = "long x;\nint main() {\n#pragma oss taskwait on(x" repeated(", x", value - 1) ")\n}\n"
    beyond = "long x;\nint main() {\n#pragma oss taskwait on(x" repeated(", x", value) ")\n}\n"
  } else if (cell[1] ~ /ticks/) {
    within = "int main() {" repeated(";", value) "}"
    beyond = "int main() {" repeated(";", value + 1) "}"
  } else if (cell[1] ~ /functions/) {
    # `main` is one, and f(0) another
    within = "void f(long n) { if (n) f(n - 1); } int main() { f(" value - 2 "); }"
    beyond = "void f(long n) { if (n) f(n - 1); } int main() { f(" value - 1 "); }"
  } else if (cell[1] ~ /tasks above/) {
    # above f(0) of f(N) stand N tasks and `main`
    line = 2
    within = "#pragma oss task\nvoid f(long n) { if (n) f(n - 1); }\nint main() { f(" value - 1 "); }"
    beyond = "#pragma oss task\nvoid f(long n) { if (n) f(n - 1); }\nint main() { f(" value "); }"
  } else if (cell[1] ~ /tasks.* creates/) {
    line = 2
    within = "int main() { for (long i = 0; i < " value "; i++)\n#pragma oss task\n;\n}\n"
    beyond = "int main() { for (long i = 0; i < " value + 1 "; i++)\n#pragma oss task\n;\n}\n"
  } else if (cell[1] ~ /turns/) {
    line = 2
    within = "long a[8]; int main() {\n#pragma oss task in({ a[i & 7], i = 0; " value " })\n;\n}\n"
    beyond = "long a[8]; int main() {\n#pragma oss task in({ a[i & 7], i = 0; " value + 1 " })\n;\n}\n"
  } else {
    give_up(cell[1])
    return
  }
  message = text_of(cell[3])
  sub(/N$/, line, message)
  if (message ~ /^refused/) {
    try_accepted(cell[1] ": so many", within)
    try_refused(cell[1] ": one more", beyond, message)
  } else {
    begin_try(cell[1] ": so many", "run p.c", 0)
    put(within)
    begin_try(cell[1] ": one more", "run p.c", 1)
    want_err(message)
    put(beyond)
  }
}

function locals(count,   i, result) {
  for (i = 1; i <= count; i++) result = result (i > 1 ? ", " : "") "v" i
  return result
}

# ---- LANGUAGE.md: examples

function row_output() {
  if (!is_code(cell[1])) { give_up(cell[1]); return }
  try_prints(cell[1], text_of(cell[1]), cell[2] == "nothing" ? "" : text_of(cell[2]))
}

function row_answer(   text, of_check, of_run) {
  text = text_of(cell[1])
  of_check = text_of(cell[2])
  of_run = cell[3] == "the same" ? of_check : text_of(cell[3])
  if (of_check == "ok") try_accepted(cell[1], text)
  else try_refused(cell[1], text, of_check)
  begin_try(cell[1] " run", "run p.c", of_run ~ /^refused/ ? 3 : of_run ~ /^fault/ ? 1 : 0)
  if (of_run ~ /^(refused|fault)/) want_err(of_run)
  put(text)
}

# ---- COMMANDS.md

function try_words(words, status) {
  begin_try(words, words, status)
  if (status == 2) {
    want_out("")
    want_err(usage)
  }
  put("int main() { }\n")
}

# In the folder of a try stand a.c and b.c, which are programs, s.txt, which is a schedule that leads them to their end, and t.txt, which is empty.
function row_words(   status, i) {
  if (cell[2] ~ /^by /) status = 0
  else if (cell[2] == "status 2") status = 2
  else { wrong("an answer that is not known: " cell[2]); return }
  if (cell[1] ~ /^none/) try_words("", status)
  read_parts(cell[1])
  for (i = 2; i <= parts; i += 2) try_words(part[i], status)
}

# Each value of an option is taken. One that is not listed is not.
function row_option(   option, i, bounds, low, high) {
  option = text_of(cell[1])
  if (cell[2] == "") {
    try_words("run a.c " option, 0)
    try_words("run a.c " option "=1", 2)
    return
  }
  sub(/[A-Z]$/, "", option)
  if (match(cell[2], /^[0-9,]+ to [0-9,]+/)) {
    split(substr(cell[2], 1, RLENGTH), bounds, / to /)
    low = bounds[1]
    high = bounds[2]
    gsub(/,/, "", low)
    gsub(/,/, "", high)
    try_words("run a.c " option low, 0)
    try_words("run a.c " option high, 0)
    try_words("run a.c " option low - 1, 2)
    try_words("run a.c " option sprintf("%.0f", high + 1), 2)
    return
  }
  # What stands after a semicolon says with what the option does not go together, or with what alone it does.
  read_parts(cell[2])
  if (cell[2] ~ /^only with/) {
    try_words("run a.c " option, 2)
    try_words("run a.c " option " " part[2], 0)
    return
  }
  for (i = 2; i <= parts; i += 2) {
    if (part[i - 1] ~ /not with/) try_words("run a.c " option part[2] " " part[i], 2)
    else if (part[i - 1] ~ /only with/) {
      try_words("run a.c " option part[i - 2], 2)
      try_words("run a.c " option part[i - 2] " " part[i], 0)
    } else if (part[i + 1] ~ /only with/) continue
    else try_words("run a.c " option part[i], 0)
  }
  try_words("run a.c " option "none", 2)
}

# the words of a call of a command on p.c
function call_of(command) {
  return command == "soak" ? "soak 7 9" : command == "replay" ? "replay p.c s.txt" : command " p.c"
}

# A row of statuses is tried by each command that it names, on a text and a schedule that have this status and this line of the error output. KIND, N and FILE of the line
# are those of the text.
function row_status(   status, message, list, count, i, command, command_list, text, schedule, words, line) {
  status = cell[1]
  if (status == 5 || status == 6) { give_up("status " status); return }
  if (cell[3] ~ /^all/) list = "check run trace replay span audit explain"
  else list = cell[3] == "" ? "run" : replaced(replaced(cell[3], "`", ""), ",", "")
  count = split(list, command_list, / /)
  message = cell[5] == "nothing" ? "" : cell[5] == "the usage line" ? usage : text_of(cell[5])
  for (i = 1; i <= count; i++) {
    command = command_list[i]
    text = "int main() { }\n"
    schedule = "step 0 1\n"
    words = call_of(command)
    line = message
    if (status == 1) {
      if (command == "soak") { give_up("`soak` with status 1"); continue }
      text = "long x;\nint main() {\n  printf(\"a\");\n  x = 1 / x;\n}\n"
      schedule = "step 0 4\n"
      line = replaced(replaced(message, "KIND", "DivideByZero"), "line N", "line 4")
    } else if (status == 2) words = "run"
    else if (status == 3 && message == "refused: TooLarge at line 1") {
      match(cell[2], /[0-9][0-9,]*/)
      text = text repeated(" ", replaced(substr(cell[2], RSTART, RLENGTH), ",", "") + 1 - length(text))
    } else if (status == 3 && message == "refused: KIND at line N") {
      text = "int main() {\n  x = 1;\n}\n"
      line = "refused: UnknownName at line 2"
    } else if (status == 3 && message == "schedule refused at line 1") {
      match(cell[2], /[0-9][0-9,]*/)
      schedule = repeated("\n", replaced(substr(cell[2], RSTART, RLENGTH), ",", "") + 1)
    } else if (status == 3 && message == "schedule refused at line N") {
      schedule = "step 0 1\n\nstep 0\nstep\n"
      line = "schedule refused at line 3"
    } else if (status == 4) {
      sub(/p\.c/, "missing.c", words)
      line = replaced(message, "FILE", "missing.c")
    } else if (status == 7 && message == "move N is not enabled") {
      schedule = "# a remark\n\nstep 0 1\nstep 0 1\nstep 0 1\n"
      line = "move 2 is not enabled"
    } else if (status == 7 && message == "N tasks unfinished") {
      schedule = ""
      line = "1 tasks unfinished"
    } else if (status != 0) {
      wrong("a status with a message that is not known: " status " " message)
      return
    }
    begin_try("status " status " of " command, words, status)
    if (line != "") want_err(line)
    if (cell[4] == "nothing") want_out("")
    else if (is_code(cell[4])) want_out(text_of(cell[4]) "\n")
    else if (status == 1 && cell[4] ~ /^(its|the) output/) want_out("a")
    if (command == "replay") put_schedule(schedule)
    put(text)
  }
}

# A link of a chain: that of a program in which one task waits for another has a line of this form.
function row_link(   form, clause) {
  form = replaced(cell[1], "`", "")
  clause = form ~ /^join/ ? "reduction(+: s)" : "inout(s)"
  begin_try(form, "span p.c", 0)
  form = replaced(form, "POINT", "[0-9.]+")
  gsub(/ [A-Z]/, " [0-9]+", form)
  want_line("^" form "$")
  put("long s;\nint main() {\n#pragma oss task " clause "\n{ s += 1; s += 2; s += 3; }\n#pragma oss task inout(s)\n{ s = s * 2; s = s * 3; }\n#pragma oss taskwait\n}\n")
}

# A move is well formed, whether it is enabled or not.
function row_move(   line) {
  line = replaced(replaced(replaced(text_of(cell[1]), "POINT", "0"), " L ", " 0 "), " N", " 1")
  begin_try(line, "replay p.c s.txt", line ~ /^step/ ? 0 : 7)
  if (line !~ /^step/) want_err("move 1 is not enabled")
  put_schedule(line)
  put("long x;\nint main() { }\n")
}

# ---- PORTING.md

# reads a case: case_text, case_status, and case_kind, the kind of its line of the error output
function read_case(name,   path, line, in_text) {
  case_text = case_status = case_kind = case_out = case_err = ""
  path = "tests/cases/" (name ~ /\// ? name : "porting/" name) ".case"
  while ((getline line <path) > 0) {
    if (in_text) case_text = case_text line "\n"
    else if (line == "program:") in_text = 1
    else if (line ~ /^status: /) case_status = substr(line, 9)
    else if (line ~ /^out: /) case_out = case_out substr(line, 6)
    else if (line ~ /^err: /) {
      case_err = substr(line, 6)
      split(case_err, case_words, / /)
      case_kind = case_words[2]
    }
  }
  close(path)
  if (case_status == "") {
    wrong("there is no such case: " name)
    return 0
  }
  if (name !~ /\//) named[name] = 1
  return 1
}

function without_blanks(text) {
  gsub(/[ \t\n]+/, "", text)
  return text
}

# whether a text has a piece, apart from blanks; `..` in the piece stands for anything
function has_piece(text, piece,   list, count, i, at) {
  text = without_blanks(text)
  count = split(without_blanks(piece), list, /\.\./)
  for (i = 1; i <= count; i++) {
    if (list[i] == "") continue
    at = index(text, list[i])
    if (!at) return 0
    text = substr(text, at + length(list[i]))
  }
  return 1
}

# Reads the cases that a row names: first_case, the name of the first; told, the kinds of their faults and refusals; output_of_cases; texts_in_c, those that have one of the kinds of the row, and texts_to_write, all others.
function read_cases(list, kinds,   i, names, count) {
  texts_in_c = texts_to_write = told = output_of_cases = " "
  read_parts(list)
  count = 0
  for (i = 2; i <= parts; i += 2) names[++count] = part[i]
  first_case = names[1]
  for (i = 1; i <= count; i++) {
    if (!read_case(names[i])) continue
    tried_pieces++
    output_of_cases = output_of_cases case_out " "
    if (case_kind == "") texts_to_write = texts_to_write case_text "\n"
    else {
      texts_in_c = texts_in_c case_text "\n"
      told = told case_kind " "
      if (kinds != "" && index(kinds, "`" case_kind "`") == 0) wrong("its case " names[i] " has another kind: " case_kind)
    }
  }
}

# Sets `before` and `after` to where a piece of a row stands, by the number of the table and its form. `S` stands for a statement.
function place_change(piece,   names, in_main) {
  names = "long x, y, c, e, n, m[2][4], a[16];\nlong f() { return 1; }\n"
  in_main = names "int main() {\nlong i, j, k, L, U, *p = a, *q = a;\n"
  before = in_main
  after = "\n}\n"
  if (table_of_changes == 1 && piece !~ /^[a-z_]+\(.*\);?$/ && cell[1] !~ /as a local/) {
    before = ""
    after = (piece ~ /^(void|int|long) .*\)$/ ? " { }" : "") "\nint main() { }\n"
  } else if (table_of_changes == 3) {
    if (piece ~ /^#/) after = "\n;\n}\n"
    else if (piece ~ /^for |<=|\+=|\+\+/) {
      before = in_main "#pragma oss taskloop\n" (piece ~ /^for / ? "" : piece ~ /</ ? "for (long i = 0; " : "for (long i = 0; i < 4; ")
      after = (piece ~ /^for / ? "" : piece ~ /</ ? "; i++)" : ")") " ;\n}\n"
    } else if (piece ~ /^grainsize/) {
      before = in_main "#pragma oss taskloop "
      after = "\nfor (long i = 0; i < 4; i++) ;\n}\n"
    } else {
      before = in_main "#pragma oss " (piece ~ /^task(wait|loop)/ ? "" : "task ")
      after = "\n;\n}\n"
    }
  } else if (piece ~ /^%/) {
    before = in_main "printf(\""
    after = "\", x);\n}\n"
  } else if (piece ~ /^(for|while|if) .*\)$/) after = " ;\n}\n"
  else if (piece ~ /^[a-z_]+\(.*\)$/) after = ";\n}\n"
  else if (piece !~ /[;}]$/) {
    before = in_main "x = "
    after = ";\n}\n"
  }
}

# A change: each kind of the row is that of one of its cases. Each piece of C stands in such a case, or is refused itself as one of the kinds. Each piece of what to write
# stands in one of the other cases, or is accepted itself.
function row_change(   kinds, refusals, i, k, kind_list) {
  if (FNR != last_row + 1) table_of_changes++
  last_row = FNR
  kinds = cell[3]
  read_cases(cell[4], kinds)
  read_parts(kinds)
  refusals = 0
  for (i = 2; i <= parts; i += 2) {
    if (index(told, " " part[i] " ") == 0) give_up("the kind " part[i] ", " first_case)
    if (part[i] !~ /^(NoRight|NotCovered|Lent|Unwritten|OutOfRange|OutOfFuel|TooManyTasks|TooDeep)$/) kind_list[++refusals] = part[i]
  }
  read_parts(cell[1])
  for (i = 2; i <= parts; i += 2) {
    if (has_piece(texts_in_c, part[i])) tried_pieces++
    else if (refusals == 0 || (part[i] ", " first_case) in reason) give_up(part[i] ", " first_case)
    else {
      place_change(part[i])
      begin_try(part[i], "check p.c", 3)
      want_out("")
      for (k = 1; k <= refusals; k++) want_err("refused: " kind_list[k] " at line " newlines(before) + 1)
      put(before replaced(part[i], " S ", " ; ") after)
      # A word alone may be a clause or a directive, and is neither.
      if (table_of_changes == 3 && part[i] ~ /^[a-z_]+$/) {
        begin_try("the directive " part[i], "check p.c", 3)
        for (k = 1; k <= refusals; k++) want_err("refused: " kind_list[k] " at line 2")
        put("int main() {\n#pragma oss " part[i] "\n;\n}\n")
      }
    }
  }
  read_parts(cell[2])
  for (i = 2; i <= parts; i += 2) {
    if (has_piece(texts_to_write, part[i])) tried_pieces++
    else if ((part[i] ", " first_case) in reason) give_up(part[i] ", " first_case)
    else {
      place_change(part[i])
      try_accepted(part[i], before replaced(part[i], " S ", " ; ") after)
    }
  }
}

# A difference: each piece of the text stands in a case of the row. Each fault that the row tells, the number with which it begins and the line of a trace are those of its
# cases.
function row_difference(   i, column, number) {
  read_cases(cell[5], "")
  for (column = 3; column <= 4; column++) {
    read_parts(cell[column])
    for (i = 2; i <= parts; i += 2) {
      if (part[i - 1] ~ /fault $/ && index(told, " " part[i] " ") == 0) give_up("the fault " part[i] ", " first_case)
      if (part[i] ~ /^# / && index(output_of_cases, part[i]) == 0) wrong("none of its cases writes this: " part[i])
    }
  }
  if (match(cell[3], /^[0-9]+/)) {
    number = substr(cell[3], 1, RLENGTH)
    if (output_of_cases !~ "(^|[^0-9])" number "([^0-9]|$)") wrong("none of its cases writes this number: " number)
  }
  read_parts(cell[1])
  for (i = 2; i <= parts; i += 2) {
    if (has_piece(texts_in_c texts_to_write, part[i])) tried_pieces++
    else give_up(part[i] ", " first_case)
  }
}

# A step of the worked port: what its case says. Step 0 is the block before the table, and the last step the block behind it.
function row_step() {
  if (!read_case("worked_port_" cell[1])) return
  tried_pieces++
  if (cell[1] == 0 && block != case_text) wrong("the block before the table is not the program of the case worked_port_0")
  sub(/ *\\n$/, "", case_out)
  if (cell[3] ~ /^nothing/ ? case_out != "" || case_status != 0 : text_of(cell[3]) != (case_status == 0 ? case_out : case_err))
    wrong("its case says something else: " case_status " " case_out case_err)
  last_step = case_text
}

# ---- the documents

# does what is told of the table with the row that is read
function do_row(   kind) {
  kind = how[page, header]
  if (kind == "explain") {
    rows_that_explain++
    return
  }
  tried_pieces = given_up = 0
  if (kind == "command") row_command()
  else if (kind == "definitions") row_definitions()
  else if (kind == "place") row_place()
  else if (kind == "link") row_link()
  else if (kind == "keywords") row_keywords()
  else if (kind == "number") row_number()
  else if (kind == "symbols") row_symbols()
  else if (kind == "line") row_line()
  else if (kind == "production") row_production()
  else if (kind == "reading") row_reading()
  else if (kind == "refusal") row_refusal()
  else if (kind == "section") row_section()
  else if (kind == "rule") row_rule()
  else if (kind == "mistake") row_mistake()
  else if (kind == "values") row_values()
  else if (kind == "kind") row_kind()
  else if (kind == "limit") row_limit()
  else if (kind == "output") row_output()
  else if (kind == "answer") row_answer()
  else if (kind == "option") row_option()
  else if (kind == "words") row_words()
  else if (kind == "status") row_status()
  else if (kind == "move") row_move()
  else if (kind == "change") row_change()
  else if (kind == "difference") row_difference()
  else if (kind == "step") row_step()
  if (tried_pieces) {
    rows_tried++
    pieces_given_up += given_up
  } else if (given_up) rows_given_up++
}

function end_document(   list, count, i, kind) {
  if (page == "docs/COMMANDS.md")
    for (kind in kind_of_a_case) if (!((page, kind) in kind_of_a_row)) wrong_page("no row has the kind of a case: " kind)
  if (page != "docs/PORTING.md") return
  if (block != last_step) wrong_page("the last block is not the program of the last step")
  count = split(porting_cases, list)
  for (i = 1; i <= count; i++) if (!(list[i] in named)) wrong_page("no row names the case " list[i])
}

BEGIN {
  count = split(kinds_of_cases, list)
  for (i = 1; i <= count; i++) kind_of_a_case[list[i]] = 1
}

FNR == 1 {
  end_document()
  page = FILENAME
  in_block = in_table = 0
  block = ""
}

/^```/ {
  in_block = !in_block
  if (in_block) is_c = /^```c$/
  if (in_block && is_c) block = ""
  in_table = 0
  next
}

in_block {
  if (is_c) block = block $0 "\n"
  next
}

!/^\|/ {
  in_table = 0
  next
}

!in_table {
  in_table = 1
  read_cells($0)
  header = cell[1]
  for (i = 2; i <= cells; i++) header = header " | " cell[i]
  known = (page, header) in how
  if (!known) wrong("a table with a header that is not known: " header)
  else {
    seen[page, header] = 1
    if (how[page, header] == "explain") tables_that_explain++
    else tables_tried++
  }
  columns = cells
  next
}

/^\|[-|: ]*$/ { next }

known {
  read_cells($0)
  if (cells != columns) wrong("it has not as many cells as the header")
  else do_row()
}

END {
  end_document()
  for (key in how) if (!(key in seen)) { split(key, names, SUBSEP); print "wrong " names[1] ": there is no table with this header: " names[2] }
  for (shown in reason) if (!(shown in used)) print "wrong tests/tables.awk: it is listed that this cannot be tried, and no row has it: " shown
  print "rows " tables_tried + 0, rows_tried + 0, rows_given_up + 0, tables_that_explain + 0, rows_that_explain + 0, pieces_given_up + 0
}
