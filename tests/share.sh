#!/bin/sh
# Tests what stands around the program, in share/: the tools that draw a trace, the man page, the completion and what editors are told. Each is
# tried where the program is there that it needs; where it is not, a line says so. What Emacs is told is not tried. The last line counts; the status is
# 0 only where nothing failed.
#   tests/share.sh [PROGRAM]        by default the built program of this repository
#
# tests/share/NAME.FORM is what `share/trace/draw FORM` makes of examples/NAME.trace.
top=$(CDPATH='' cd -- "$(dirname -- "$0")/.." && pwd) || exit 1
program=${1:-$top/crates/nest6/out/nest6}
case $program in
  /*) ;;
  *) program=$PWD/$program ;;
esac
share=$top/share
work=$(mktemp -d) || exit 1
trap 'rm -rf "$work"' EXIT
passed=0
failed=0

# check NAME WORD..: whether the command of these words says yes
check() {
  checked=$1
  shift
  if "$@" >"$work/told" 2>&1; then
    passed=$((passed + 1))
  else
    failed=$((failed + 1))
    echo "failed: $checked"
    head -n 5 "$work/told"
  fi
}

# is_there PROGRAM WHAT: whether this program is there; a line says what is not tried without it
is_there() {
  command -v "$1" >/dev/null 2>&1 && return 0
  echo "$1 is not there: $2"
  return 1
}

# is_built WHAT: the same for the program itself
is_built() {
  [ -x "$program" ] && return 0
  echo "the program is not built: $1"
  return 1
}

# equal WANTED GOT: two texts
equal() {
  [ "$1" = "$2" ] && return 0
  printf 'wanted: %s\ngot: %s\n' "$1" "$2"
  return 1
}

# ---- traces

# draws FILE AWK..: whether this awk makes of a trace what is stored in the file
draws() {
  file=$1
  shift
  name=$(basename -- "$file")
  "$@" -f "$share/trace/read.awk" -f "$share/trace/${name##*.}.awk" <"$top/examples/${name%.*}.trace" | diff "$file" -
}

# refuses_trace TEXT: whether `draw` says in a line of the error output that this is no trace, with the status 1
refuses_trace() {
  for form in text svg json; do
    printf '%b' "$1" | "$share/trace/draw" "$form" >"$work/out" 2>"$work/err"
    equal 1 $? || return 1
    equal 0 "$(wc -c <"$work/out" | tr -d ' ')" || return 1
    equal 1 "$(wc -l <"$work/err" | tr -d ' ')" || return 1
  done
}

# counts_in FORM PATTERN LINES: whether the pattern stands as often in the picture of each trace of examples/ as its lines of this form
counts_in() {
  for trace in "$top"/examples/*.trace; do
    picture=$work/pictures/$(basename -- "$trace" .trace).$1
    equal "$(basename -- "$trace") $(grep -c -E "$3" "$trace")" "$(basename -- "$trace") $(grep -o -E "$2" "$picture" | wc -l | tr -d ' ')" || return 1
  done
}

for file in "$top"/tests/share/*.text "$top"/tests/share/*.svg "$top"/tests/share/*.json; do
  name=$(basename -- "$file")
  "$share/trace/draw" "${name##*.}" "$top/examples/${name%.*}.trace" >"$work/out" 2>&1
  check "tests/share/$name" diff "$file" "$work/out"
  for awk in gawk mawk original-awk; do
    ! command -v "$awk" >/dev/null 2>&1 || check "tests/share/$name by $awk" draws "$file" "$awk"
  done
  ! command -v busybox >/dev/null 2>&1 || check "tests/share/$name by busybox" draws "$file" busybox awk
done

mkdir "$work/pictures"
for trace in "$top"/examples/*.trace; do
  name=$(basename -- "$trace" .trace)
  for form in text svg json; do
    "$share/trace/draw" "$form" "$trace" >"$work/pictures/$name.$form"
  done
done
check "a mark of text for each line step" counts_in text '#' '^step '
check "a box of SVG for each line step" counts_in svg "<rect class='acts'" '^step '
check "a slice of JSON for each line step" counts_in json '"ph": "X"' '^step '
check "a mark of JSON for each line let or join" counts_in json '"ph": "i"' '^(let|join) '
# The names of levels_strong.trace have 5 letters, so the wave w begins at 5 + 8 * 5 + 5 + 30 * (w - 1). The task 0.0, in row 2, acts last in wave 2 and
# gives up in wave 5; 0.1, in row 5, acts last in wave 6 and gives up in wave 7.
check "dashed lines in SVG" equal "<line class='holds' x1='110' x2='200' y1='50' y2='50'/>
<line class='holds' x1='230' x2='260' y1='110' y2='110'/>" "$(grep "<line class='holds'" "$work/pictures/levels_strong.svg")"
! is_there xmllint "it is not looked whether pictures are well-formed SVG" ||
  check "well-formed SVG" xmllint --noout "$work/pictures"/*.svg
! is_there python3 "it is not looked whether pictures are well-formed JSON" ||
  check "well-formed JSON" python3 -c 'import json, sys; [json.load(open(name)) for name in sys.argv[1:]]' "$work/pictures"/*.json

check "an empty text is no trace" refuses_trace ''
check "a schedule without waves is no trace" refuses_trace 'step 0 1\n'
check "a trace that is cut off" refuses_trace '# wave 1\nstep 0 1\n'
check "a wave that is left out" refuses_trace '# wave 1\nstep 0 1\n# wave 3\nstep 0 1\n# tasks 1 waves 3 widest 1\n'
check "a task that gives up before it acts" refuses_trace '# wave 1\nstep 0 1\nlet 0.0 0 1\n# tasks 2 waves 1 widest 1\n'
check "two traces" refuses_trace '# wave 1\nstep 0 1\n# tasks 1 waves 1 widest 1\n# wave 1\nstep 0 1\n# tasks 1 waves 1 widest 1\n'
"$share/trace/draw" picture >"$work/out" 2>&1 </dev/null
check "a form that is none" equal '2 usage: draw text|svg|json [TRACE]' "$? $(cat "$work/out")"

# ---- the man page

page=$share/man/nest6.1

# is_silent WORD..: whether a command says nothing, on both outputs, and has the status 0
is_silent() {
  "$@" >"$work/silent" 2>&1 && [ ! -s "$work/silent" ] && return 0
  cat "$work/silent"
  return 1
}

# each_once: the lines of the input, each once, in one line
each_once() {
  LC_ALL=C sort -u | tr '\n' ' '
}

# in_cases PATTERN: what the group of this pattern is in lines of the cases
in_cases() {
  find "$top/tests/cases" -name '*.case' -exec cat {} + | LC_ALL=C sed -n "s/^$1\$/\\1/p"
}

# in_page SECTION PATTERN: what the group of this pattern is in lines of a section of the man page
in_page() {
  awk -v section="$1" '/^\.SH / { inside = substr($0, 5) == section } inside' "$page" | LC_ALL=C sed -n "s/^$2\$/\\1/p"
}

kinds=$(in_cases 'err: fault: \([A-Za-z]*\) .*' && in_cases 'err: refused: \([A-Za-z]*\) .*')
check "the man page has the kinds that the cases show" equal "$(echo "$kinds" | each_once)" \
  "$(in_page DIAGNOSTICS '\.BR\{0,1\} \([A-Z][A-Za-z]*\).*' | each_once)"
# No case shows the statuses 5 and 6, and 70 is one of the script.
statuses=$(in_cases 'status: \([0-9]*\)' && printf '%s\n' 5 6 70)
check "the man page has the statuses" equal "$(echo "$statuses" | each_once)" "$(in_page 'EXIT STATUS' '\([0-9][0-9]*\)' | each_once)"

! is_there groff "it does not read the man page" ||
  check "the man page by groff" is_silent groff -man -ww -T utf8 -z "$page"
case $(man --version 2>/dev/null) in
  'man '*)
    man -l --warnings -E UTF-8 "$page" >"$work/out" 2>"$work/err" </dev/null
    check "the man page by man" equal '0 run and check C programs with OmpSs-2 tasks' "$?$(sed -n 's/^ *nest6 -//p' "$work/out")$(cat "$work/err")"
    ;;
  *) echo "man-db is not there: it does not read the man page" ;;
esac

# page_examples: the examples of the man page, as a reader who has nest6 on the path writes them, and what the program makes of them
page_examples() {
  mkdir -p "$work/reader/bin"
  ln -sf "$top/examples" "$work/reader/examples"
  ln -sf "$program" "$work/reader/bin/nest6"
  awk '/^\.EE/ { inside = 0 } inside { gsub(/\\\(aq/, "\047"); print } /^\.EX/ { inside = 1 }' "$page" >"$work/reader/shown"
  {
    # shellcheck disable=SC2016
    echo 'say() { sed -n "$1p" shown; }'
    awk '/^\$ / { print "say " NR; print substr($0, 3) }' "$work/reader/shown"
  } >"$work/reader/script"
  (cd "$work/reader" && PATH=$work/reader/bin:$PATH sh ./script) 2>&1 </dev/null | diff "$work/reader/shown" -
}

# ---- the completion

completion=$share/completion/nest6.bash

# The signs at which bash parts words. One that has no = among them leaves an option and its value together.
BREAKS=' =<>'
export BREAKS

# completions WORD..: what bash offers for the last of these words, in one line; the words are parted as bash does it, at the = too
completions() {
  bash --norc --noprofile -c '
    source "$0"
    COMP_WORDBREAKS=$BREAKS
    COMP_WORDS=("$@")
    COMP_CWORD=$(($# - 1))
    _nest6
    for reply in "${COMPREPLY[@]}"; do echo "$reply"; done
  ' "$completion" "$@" | each_once
}

# offers WANTED WORD..
offers() {
  wanted=$1
  shift
  equal "$wanted" "$(completions "$@")"
}

# agrees ANSWER WORD..: whether the program takes these words as a call (yes), or refuses them (no)
agrees() {
  wanted=$1
  shift
  "$program" "$@" >/dev/null 2>&1 </dev/null
  if [ $? = 2 ]; then equal "$wanted" no; else equal "$wanted" yes; fi
}

# has LINE WORD: yes or no
has() {
  case " $1 " in
    *" $2 "*) echo yes ;;
    *) echo no ;;
  esac
}

# operands COMMAND: such as the command takes
operands() {
  case $1 in
    soak) echo 7 9 ;;
    replay) echo none.c none.txt ;;
    *) echo none.c ;;
  esac
}

# page_options COMMAND: the options that the synopsis of the man page gives it
page_options() {
  awk -v command="$1" '/^\.SY / { inside = $0 == ".SY \"nest6 " command "\"" } inside && /^\.OP / { gsub(/\\/, ""); sub(/=.*/, "="); print $2 }' "$page" | each_once
}

# try_completion: what is offered, in a folder with some files
try_completion() {
  check "commands" offers 'audit check explain graph missing replay run soak span trace ' nest6 ''
  check "commands with s" offers 'soak span ' nest6 s
  check "no option as a command" offers '' nest6 --mode =
  check "options of run" offers '--deps= --dump --fuel= --mode= --order --who --workers= ' nest6 run --
  check "options of trace" offers '--deps= --fuel= ' nest6 trace -
  check "options of replay" offers '--fuel= ' nest6 replay --
  check "options of soak" offers '--deps= --mode= --workers= ' nest6 soak --
  check "options of span" offers '--fuel= ' nest6 span --
  check "options of audit" offers '--fuel= ' nest6 audit --
  check "options of explain" offers '--fuel= ' nest6 explain --
  check "options of graph" offers '--fuel= ' nest6 graph --
  check "options of missing" offers '--fuel= ' nest6 missing --
  check "check has no options" offers '' nest6 check --
  check "options of no command" offers '' nest6 walk --
  check "an option that is begun" offers '--deps= --dump ' nest6 run --d
  check "an option stands once" offers '--deps= --fuel= --mode= --order --who --workers= ' nest6 run --dump a.c --
  check "an option with a value stands once" offers '--deps= --dump --fuel= --mode= --order --who ' nest6 run --workers = 4 a.c --
  check "no --deps in the mode serial" offers '--dump --fuel= --workers= ' nest6 run --mode = serial --
  check "--deps in the mode waves" offers '--deps= --dump --fuel= --workers= ' nest6 run --mode = waves --
  check "no --deps in the mode workers" offers '--dump --fuel= --order --who --workers= ' nest6 run --mode = workers --
  check "no --deps beside --who" offers '--dump --fuel= --mode= --order --workers= ' nest6 run --who --
  check "the mode beside --order" offers 'workers ' nest6 run --order --mode =
  check "modes" offers 'serial waves workers ' nest6 run --mode =
  check "modes with s" offers 'serial ' nest6 soak --mode = s
  check "the mode beside --deps" offers 'waves ' nest6 run --deps = plain --mode =
  check "dependency systems" offers 'plain regions words ' nest6 trace a.c --deps =
  check "dependency systems with w" offers 'words ' nest6 run a.c --deps = w
  check "no dependency system in the mode serial" offers '' nest6 run --mode = serial --deps =
  check "a number" offers '' nest6 run --workers =
  check "the mode of a command without it" offers '' nest6 trace --mode =
  check "programs and folders" offers 'a.c folder two words.c ' nest6 run ''
  check "a program behind an option" offers 'a.c ' nest6 span --fuel = 5 a
  check "a program in a folder" offers 'folder/inner.c ' nest6 check folder/
  check "no second program" offers '' nest6 run a.c ''
  check "the program of a replay" offers 'a.c folder two words.c ' nest6 replay ''
  check "a schedule" offers 'a.c b.txt folder two words.c ' nest6 replay a.c ''
  check "no third file" offers '' nest6 replay a.c b.txt ''
  check "no file for numbers" offers '' nest6 soak ''
  check "a file of the shell" offers 'b.txt ' nest6 trace a.c '>' b
  for command in check run trace replay soak span audit explain graph missing; do
    check "the man page has the options of $command" offers "$(page_options "$command")" nest6 "$command" --
  done
  BREAKS=' '
  check "a value that is not parted from its option" offers '--mode=serial ' nest6 run --mode=s
  BREAKS=' =<>'
}

# What the program takes is what is offered: the commands, for each command the options, and their values.
try_agreement() {
  usage=$("$program" 2>&1 </dev/null)
  # The usage line does not name `explain`, `graph` and `missing`.
  check "the commands of the usage line are offered, and three more" offers "$({ echo "$usage" | sed 's/^usage: nest6 //' | tr '|' '\n' && echo explain && echo graph && echo missing; } | awk '{ print $1 }' | each_once)" nest6 ''
  for command in check run trace replay soak span audit explain graph missing; do
    offered=$(completions nest6 "$command" --)
    for option in --mode=waves --deps=plain --fuel=7 --workers=2 --dump; do
      # The operands are parted here.
      # shellcheck disable=SC2046
      check "$command with $option" agrees "$(has "$offered" "$(echo "$option" | sed 's/=.*/=/')")" "$command" $(operands "$command") "$option"
    done
  done
  for option in --mode --deps; do
    offered=$(completions nest6 run "$option" =)
    for value in serial waves workers regions plain words lists; do
      # There is one worker in the mode workers for now.
      check "run with $option=$value" agrees "$(has "$offered" "$value")" run none.c --workers=1 "$option=$value"
    done
  done
}

if is_there bash "the completion is not tried"; then
  mkdir "$work/files"
  cd "$work/files" || exit 1
  mkdir folder
  echo 'int main() { }' >a.c
  cp a.c 'two words.c'
  cp a.c folder/inner.c
  : >b.txt
  try_completion
  cp a.c none.c
  : >none.txt
  ! is_built "it is not asked which words it takes" || try_agreement
fi
! is_built "the examples of the man page are not tried" ||
  check "the examples of the man page" page_examples

# ---- editors

# A command nest6 that writes of each file what is in FILE.err, behind some output.
mkdir "$work/stub" "$work/edited"
cat >"$work/stub/nest6" <<'END'
#!/bin/sh
for word; do :; done
echo "fault: no message, but output"
cat "$word.err" >&2
exit 1
END
chmod +x "$work/stub/nest6"
cd "$work/edited" || exit 1
PATH=$work/stub:$PATH
cp "$top/examples/fork_wrong.c" 'two words.c'
cp "$top/examples/fork_wrong.err" 'two words.c.err'
cp "$top/examples/fork.c" refused.c
echo 'refused: Syntax at line 7' >refused.c.err
cp "$top/examples/fork.c" fine.c
: >fine.c.err

# vim_jumps FILE WANTED: the errors that Vim has behind `:make`, and where it goes from another file
vim_jumps() {
  cat >script.vim <<'END'
set nocompatible shell=/bin/sh shellpipe=2>&1\|\ tee
let &runtimepath = $folder
execute 'edit' fnameescape($file)
compiler nest6
silent make! --fuel=5
let found = map(getqflist(), 'bufname(v:val.bufnr) . ":" . v:val.lnum . ": " . v:val.text')
edit other.c
silent! cfirst
call writefile(found + [bufname('%') . ' ' . line('.')], 'found')
qall!
END
  rm -f found
  mkdir -p runtime/compiler
  cp "$share/editors/nest6.vim" runtime/compiler/
  folder=$PWD/runtime file=$1 vim -es -u NONE -i NONE -S script.vim </dev/null >/dev/null 2>&1
  equal "$2" "$(cat found)"
}

if is_there vim "it is not tried whether it goes to a fault" && vim --version | grep -q '+quickfix'; then
  check "Vim goes to a fault" vim_jumps 'two words.c' 'two words.c:11: fault: NoRight at line 11
two words.c 11'
  check "Vim goes to what is refused" vim_jumps refused.c 'refused.c:7: refused: Syntax at line 7
refused.c 7'
  check "Vim stays where nothing is wrong" vim_jumps fine.c 'other.c 1'
fi

# code_marks FILE WANTED: what VS Code marks behind the task, by the two patterns of the task over two lines that follow each other
code_marks() {
  cat >task.py <<'END'
import json, re, subprocess, sys
lines = [line for line in open(sys.argv[1]) if not line.lstrip().startswith('//')]
task = json.loads(''.join(lines))['tasks'][0]
command = task['command'].replace('${file}', sys.argv[2])
told = subprocess.run(['sh', '-c', command], stdout=subprocess.PIPE, stderr=subprocess.STDOUT, text=True).stdout.splitlines()
first, second = task['problemMatcher']['pattern']
for one, other in zip(told, told[1:]):
    name, message = re.search(first['regexp'], one), re.search(second['regexp'], other)
    if name and message:
        print(name[first['file']], message[second['line']], message[second['message']])
END
  equal "$2" "$(python3 task.py "$share/editors/tasks.json" "$1")"
}

if is_there python3 "it is not tried what VS Code marks"; then
  check "VS Code marks a fault" code_marks "$PWD/two words.c" "$PWD/two words.c 11 fault: NoRight"
  check "VS Code marks what is refused" code_marks "$PWD/refused.c" "$PWD/refused.c 7 refused: Syntax"
  check "VS Code marks nothing where nothing is wrong" code_marks "$PWD/fine.c" ''
fi

# ---- what is told of it

# readme_shows: each block `console` of share/README.md whose commands need no built program is what they write
readme_shows() {
  awk '/^```console/ { inside = 1; next } /^```/ { inside = 0 } inside' "$share/README.md" >"$work/shown"
  {
    # shellcheck disable=SC2016
    echo 'say() { sed -n "$1p" "$shown"; }'
    awk '/^\$ / { print "say " NR; print substr($0, 3) }' "$work/shown"
  } >"$work/script"
  (cd "$top" && shown=$work/shown sh "$work/script") 2>&1 </dev/null | diff "$work/shown" -
}
check "the picture of share/README.md" readme_shows

echo "$passed passed, $failed failed"
[ "$failed" = 0 ]
