#!/bin/sh
# Tests the script nest6 of the top: a copy of it, over crates that are empty, with a command `rt` that proves nothing. That one
# writes lines as `rt ci` does, and leaves a program. The last line counts; the status is 0 only where nothing failed.
top=$(CDPATH='' cd -- "$(dirname -- "$0")/.." && pwd) || exit 1
work=$(mktemp -d) || exit 1
work=$(CDPATH='' cd -P -- "$work" && pwd) || exit 1
trap 'rm -rf "$work"' EXIT
passed=0
failed=0

# check NAME WORD..: whether the command of these words says yes
check() {
  name=$1
  shift
  if "$@"; then
    passed=$((passed + 1))
  else
    failed=$((failed + 1))
    echo "failed: $name"
  fi
}

copy=$work/copy
out=$copy/crates/nest6/out
for crate in low middle side nest6; do
  mkdir -p "$copy/crates/$crate/src" "$copy/crates/$crate/specs" "$copy/crates/$crate/proofs"
  : >"$copy/crates/$crate/src/lib.rt"
done
cp "$top/nest6" "$copy/nest6"
# The order of the lines is not the one in which rt takes the crates.
cat >"$copy/crates.txt" <<'END'
# NAME: the libraries it stands on
middle: low
nest6: side middle thiserror
low: thiserror
side:
END

# What the proofs cost; that of nest6 is not told.
mkdir "$copy/docs"
cat >"$copy/docs/GATE.md" <<'END'
## What it costs

| crate | proof | with its tests | wrong bodies |
|---|---|---|---|
| `low` | ~60 | – | 1000 |
| `middle` | 140 | – | – |
| `side` | 20 | – | – |
| `nest6` | – | – | – |

## Something else

| `low` | 1000 |
END
echo 'Handles allowed: none.' >"$copy/HANDLES"

# What it does is in the file `does`: `prove`; `fail at once`; `fail in CRATE`; `stay in CRATE`, for ever; `wait in CRATE`, for
# the file `go`; `half`, to leave half a program and stay. What it has finished it keeps beside the copy in which it is called, as rt does.
mkdir "$work/fake" "$work/tools" "$work/calls"
cat >"$work/fake/rt" <<'END'
#!/bin/sh
work=$(dirname -- "$0")/..
echo "$*" >"$work/calls/$$"
echo "$$" >"$work/process"
pwd >"$work/place"
cat crates.txt >"$work/lines"
does=$(cat "$work/does")
[ "$does" != 'fail at once' ] || exit 1
failed=
for crate in side low middle nest6; do
  mkdir -p "crates/$crate/out"
  [ ! -f "$work/kept/$crate" ] || {
    echo "rt: $crate is kept: an earlier run on this machine proved the same files over the same libraries" >&2
    continue
  }
  [ -z "$failed" ] || {
    echo "rt: $crate NOT PROVED: its library $failed failed" >&2
    continue
  }
  echo "fn $crate::it: proved"
  case $does in
    "fail in $crate")
      echo "fn $crate::it: not proved"
      echo "rt: $crate NOT PROVED" >&2
      failed=$crate
      continue
      ;;
    "stay in $crate") exec sleep 60 ;;
    "wait in $crate") until [ -f "$work/go" ]; do sleep 0.1; done ;;
  esac
  echo "rt: $crate proved" >&2
  mkdir -p "$work/kept"
  : >"$work/kept/$crate"
done
[ -z "$failed" ] || exit 1
if [ "$does" = half ]; then
  echo '#!/bin/sh' >crates/nest6/out/nest6
  exec sleep 60
fi
cp "$work/program" crates/nest6/out/nest6
chmod +x crates/nest6/out/nest6
END
chmod +x "$work/fake/rt"
cat >"$work/program" <<'END'
#!/bin/sh
for word in "$@"; do echo "word $word of $(basename "$PWD")"; done
(true >&9) 2>/dev/null && echo 'the lock'
echo 'error output' >&2
exit 7
END
# The script looks at the log each second; here it does so more often.
cat >"$work/fake/sleep" <<END
#!/bin/sh
[ "\$1" != 1 ] || set -- 0.1
exec "$(command -v sleep)" "\$@"
END
chmod +x "$work/fake/sleep"
# The machine has two processors.
printf '#!/bin/sh\necho 2\n' >"$work/fake/nproc"
chmod +x "$work/fake/nproc"
# all that the script calls, but rt, flock and nproc
for tool in sh awk basename cat chmod cp date dirname find grep head mkdir mktemp mv readlink rm sed sleep tail touch wc; do
  ln -s "$(command -v "$tool")" "$work/tools/$tool"
done
PATH=$work/fake:$PATH

printf 'word one of %s\nword two words of %s\n' "$(basename "$work")" "$(basename "$work")" >"$work/wanted_out"
echo 'error output' >"$work/wanted_quiet"
begins='nest6: proving and building the program; from nothing that takes'

# fresh DOES: nothing is built, and this is what rt does
fresh() {
  rm -rf "$copy"/crates/*/out "$work/kept" "$work/calls" "$work/go" "$work/process"
  mkdir "$work/calls"
  echo "$1" >"$work/does"
}

# call NAME: leaves status, output and error output of a call of the script in `got`, NAME.out and NAME.err
call() {
  (cd "$work" && exec "${script:-$copy/nest6}" one 'two words') >"$work/$1.out" 2>"$work/$1.err"
  got=$?
}

# begin NAME: the same, behind; it leaves the process in `begun`
begin() {
  # (what an earlier call has said is not to count)
  rm -f "$work/$1.err"
  (cd "$work" && exec "$copy/nest6" one 'two words') >"$work/$1.out" 2>"$work/$1.err" &
  begun=$!
}

# cut SIGNAL: ends the call that was begun; its status is in `got`
cut() {
  {
    kill -s "$1" "$begun"
    wait "$begun"
  } 2>/dev/null
  got=$?
}

# until_said NAME TEXT: waits for this text on the error output, for ten seconds at most
until_said() {
  tries=0
  until grep -q -F -e "$2" "$work/$1.err" 2>/dev/null || [ "$tries" = 100 ]; do
    tries=$((tries + 1))
    sleep 0.1
  done
}

# ended STATUS NAME: whether this is the status, and the call has told the program's output
ended() { [ "$got" = "$1" ] && cmp -s "$work/$2.out" "$work/wanted_out"; }

# stopped STATUS NAME: whether this is the status, and the output has nothing
stopped() { [ "$got" = "$1" ] && [ ! -s "$work/$2.out" ]; }

# says NAME TEXT: whether the error output has this text
says() { grep -q -F -e "$2" "$work/$1.err"; }

says_not() { ! says "$@"; }

# is_gone PROCESS: whether it has ended
is_gone() { ! kill -s 0 "$1" 2>/dev/null; }

# proved CRATE..: whether these crates were proved in the last build, and no other
proved() { [ "$(sed -n 's/^rt: \([a-z0-9]*\) proved$/\1/p' "$out/build.log" | tr '\n' ' ')" = "$*${*:+ }" ]; }

# cleared: whether the copy in which rt was called is gone
cleared() { [ -s "$work/place" ] && [ ! -e "$(cat "$work/place")" ] && [ ! -e "$out/copy" ]; }

# called TIMES: whether rt was called so often
called() { [ "$(find "$work/calls" -type f | wc -l)" -eq "$1" ]; }

# The first call: it tells how much is proved, of all the crates below the program.
fresh prove
call first
check "the first call ends as the program does" ended 7 first
check "the first call says how long it takes" says first "$begins $(sed -n "s/^measured='\(.*\)'\$/\1/p" "$copy/nest6")"
check "the first call proves each crate" proved side low middle nest6
check "the first call tells that all is proved" says first 'nest6: 100 % is proved, 4 of 4 crates'
check "rt is given the lines of the crates below the program" grep -q -x -e 'nest6: side middle thiserror' "$work/lines"
check "the copy is gone after a build" cleared
check "the first call says that the program is built" says first 'nest6: the program is built'
for document in README.md docs/COMMANDS.md docs/GATE.md; do
  check "the same time in $document" grep -q -F -e "$(sed -n "s/^measured='\(.*\)'\$/\1/p" "$copy/nest6")" "$top/$document"
done
check "the program is built by the gate" grep -q -x -e 'ci' "$work/calls"/*
check "the log has what rt has written" grep -q -x -e 'fn low::it: proved' "$out/build.log"

# A program that is up to date: rt is not called, and need not be there.
PATH=$work/tools call second
check "a second call ends as the program does" ended 7 second
check "a second call says nothing" cmp -s "$work/second.err" "$work/wanted_quiet"
check "a second call calls no rt" called 1

# A source has changed.
rm "$work/kept/low"
touch "$copy/crates/low/src/lib.rt"
call changed
check "a call behind a change ends as the program does" ended 7 changed
check "a call behind a change proves that crate" proved low
check "what is kept counts as proved" says changed 'nest6: 100 % is proved, 4 of 4 crates'
rm "$copy/crates/low/src/lib.rt"
call removed
check "a call behind the removal of a source builds" called 3

# Through links: one with a whole path, one beside it that names the first, and one in a folder that is reached by a link itself.
mkdir -p "$work/bin" "$work/other/bin" "$work/other/copy"
ln -s "$copy/nest6" "$work/bin/nest6"
ln -s nest6 "$work/bin/again"
ln -s "$work/bin" "$work/other/deep"
ln -s ../copy/nest6 "$work/bin/up"
for script in "$work/bin/nest6" "$work/bin/again" bin/again "$work/other/deep/up"; do
  call link
  check "a call through the link ${script#"$work"/}" ended 7 link
done
script=
check "a call through a link builds nothing" called 3
call_by_path() { (cd "$work" && PATH=$work/bin:$PATH && exec nest6 one 'two words') >"$work/link.out" 2>/dev/null; }
call_by_path
got=$?
check "a call by the path" ended 7 link

# A build that fails: in a crate, and behind one that was built.
fresh 'fail in middle'
call failure
check "a failed build has the status 70" stopped 70 failure
check "a failed build names the crate and the log" says failure "nest6: the build failed in middle; its log is $out/build.log"
check "a failed build tells of the crates up to there" says failure 'nest6: 32 % is proved, 2 of 4 crates; about '
check "the copy is gone after a failed build" cleared
check "a failed build leaves no stamp" test ! -e "$out/built-from" -a ! -e "$out/built-from.new"
check "the log of a failed build" grep -q -x -e 'fn middle::it: not proved' "$out/build.log"
echo 'fail at once' >"$work/does"
call early
check "a build that fails before a crate is begun" says early "nest6: the build failed; its log is $out/build.log"
echo prove >"$work/does"
call mended
check "a mended build ends as the program does" ended 7 mended
check "a mended build goes on behind what is proved" proved middle nest6
echo 'fail in low' >"$work/does"
rm "$work/kept/low"
touch "$copy/crates/low/src/lib.rt"
call worse
check "a failed build does not call the program of before" stopped 70 worse
call worse
check "a build fails again" stopped 70 worse

# The folder of what is built cannot be written: a file is in its place.
fresh prove
: >"$out"
call barred
check "a folder that cannot be written has the status 70" stopped 70 barred
check "a folder that cannot be written is told" says barred "nest6: the folder $out cannot be written, and the program is built there"
check "a folder that cannot be written is not told as a failed build" says_not barred 'the build failed'
rm "$out"

# There is no rt.
fresh prove
PATH=$work/tools call absent
check "no rt has the status 70" stopped 70 absent
check "no rt is told" says absent 'nest6: the command rt of the Rattle toolchain is not on the path'

# A build that a signal cuts off: rt is ended too, and the next call goes on.
fresh 'stay in middle'
begin cut
until_said cut '32 % is proved'
cut TERM
check "a build that is cut off ends by the signal" stopped 143 cut
check "a build that is cut off says so" says cut 'nest6: interrupted; the next call builds the program'
check "the copy is gone after a build that is cut off" cleared
check "a build that is cut off leaves no stamp" test ! -e "$out/built-from" -a ! -e "$out/built-from.new"
check "a build that is cut off ends its rt" is_gone "$(cat "$work/process")"
echo prove >"$work/does"
call resumed
check "the call behind that ends as the program does" ended 7 resumed
check "the call behind that goes on" proved middle nest6

# The program is gone, and a build is cut off while it writes a new one: the next call builds.
rm "$out/nest6"
echo half >"$work/does"
begin cut
until_said cut '100 % is proved'
cut TERM
check "a program that was written by half is not taken" test ! -e "$out/nest6"
echo prove >"$work/does"
call whole
check "a program that was written by half is built again" ended 7 whole

# Two calls at once: the second waits for the first, and builds nothing. The first tells how far it is: 20 of 250 seconds, and 230 on two processors.
fresh 'wait in low'
begin one
until_said one '1 of 4 crates'
check "a build tells how much is proved, and about how long the rest takes" says one 'nest6: 8 % is proved, 1 of 4 crates; about 2 minutes left'
one=$begun
begin two
until_said two 'another call is building the program'
two=$begun
: >"$work/go"
wait "$one"
got=$?
check "the first of two calls" ended 7 one
wait "$two"
got=$?
check "the second of two calls" ended 7 two
check "the second of two calls says that it waits" says two 'nest6: another call is building the program; waiting for it'
check "the second of two calls builds nothing" called 1

# The first call is killed. Its rt goes on, so the next call waits for that, and then takes what it has proved.
fresh 'wait in low'
begin killed
until_said killed '1 of 4 crates'
cut KILL
begin next
until_said next 'another call is building the program'
: >"$work/go"
wait "$begun"
got=$?
check "the call behind a killed one" ended 7 next
check "the call behind a killed one waits for the rt that is left" says next 'waiting for it'
check "the call behind a killed one takes what was proved" proved
check "the copies of both are gone" cleared

# Nothing is left of the killed call and of its rt: no one waits.
fresh 'stay in low'
begin killed
until_said killed '1 of 4 crates'
cut KILL
kill -s KILL "$(cat "$work/process")"
# (so that each of its processes has ended)
sleep 0.5
echo prove >"$work/does"
call alone
check "the call behind a killed one without its rt" ended 7 alone
check "the call behind a killed one without its rt does not wait" says_not alone 'another call'

# Without flock.
fresh prove
PATH=$work/fake:$work/tools call unlocked
check "a call without flock" ended 7 unlocked

echo "$passed passed, $failed failed"
[ "$failed" = 0 ]
