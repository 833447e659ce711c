#!/bin/sh
# Tries the wrong bodies of wrong/, which the gate does not try: each is to be refused. A wrong body of crate NAME is a file wrong/NAME/*.edit, written as those of
# crates/NAME/must-fail/.
#   tests/wrong.sh NAME..   tries those of these crates, in a copy: by `rt ci NAME..`, over what the gate has proved on this machine, or by `rt must-fail NAME..`
#                           where the toolchain keeps nothing and so takes no names there; that one proves the crates below first, but for libraries that `rt` has built in this folder
#   tests/wrong.sh          the same of all crates
#   tests/wrong.sh --functions NAME..
#                           tries those of these crates that change functions by a check of these functions and of what they call alone (`rt check --only`), which takes a part
#                           of the time: such a function is proved as it stands, and not with the change. The others, and what is not refused so, are named, and are tried without the word
#   tests/wrong.sh --fit    proves nothing: whether each wrong body of wrong/ and of must-fail/ fits: each text that it changes stands once in its file
# A toolchain that keeps what it has proved tries once what has not changed. The last line counts; the status is 0 only where each was refused, or fits.
cd "$(dirname -- "$0")/.." || exit 1

# fits EDIT CRATE: whether a wrong body fits the crate in this folder; says why, where it does not. A later change applies to what the earlier ones have made.
fits() {
  awk -v edit="$1" -v crate="$2" '
    function wrong(why) { print edit ": " why; bad = 1 }
    function content(file,   text, line) {
      while ((getline line < file) > 0) text = text line "\n"
      close(file)
      return text
    }
    function count(text, part,   found, at) {
      while (part != "" && (at = index(text, part)) > 0) { found++; text = substr(text, at + length(part)) }
      return found + 0
    }
    /^file: / {
      file = crate "/" substr($0, 7)
      if (!(file in texts)) texts[file] = content(file)
      if (texts[file] == "") wrong("there is no file " file)
      next
    }
    /^old: / {
      old = substr($0, 6)
      found = count(texts[file], old)
      if (found != 1) wrong("what stands behind old: is in " file " " found " times")
      next
    }
    /^new:/ {
      changes++
      if (substr($0, 6) == old) wrong("it changes nothing")
      at = index(texts[file], old)
      if (at > 0) texts[file] = substr(texts[file], 1, at - 1) substr($0, 6) substr(texts[file], at + length(old))
      next
    }
    { wrong("a line begins with none of file:, old: and new:") }
    END {
      if (!changes) wrong("it changes nothing")
      exit bad
    }
  ' "$1"
}

# fit_all: the same of all wrong bodies
fit_all() {
  good=0
  bad=0
  for edit in wrong/*/*.edit crates/*/must-fail/*.edit; do
    [ -f "$edit" ] || continue
    folder=$(dirname -- "$edit")
    case $folder in
      wrong/*) crate=crates/$(basename -- "$folder") ;;
      *) crate=$(dirname -- "$folder") ;;
    esac
    if fits "$edit" "$crate"; then good=$((good + 1)); else bad=$((bad + 1)); fi
  done
  echo "$good wrong bodies fit, $bad do not"
  [ "$bad" = 0 ]
}

# copy_to FOLDER NAME..: what rt reads of the crates, and the libraries that it has built of them, with the wrong bodies of the named ones in the place of
# those that the gate tries
copy_to() {
  to=$1
  shift
  cp crates.txt HANDLES "$to/" || return 1
  for crate in crates/*; do
    mkdir -p "$to/$crate" || return 1
    for part in src specs proofs data args stdin stdout status; do
      [ ! -e "$crate/$part" ] || cp -R "$crate/$part" "$to/$crate/$part" || return 1
    done
    # (rt takes a library only with the stamp of what it is made from)
    [ ! -f "$crate/out/rlib/stamp" ] || { mkdir -p "$to/$crate/out" && cp -R "$crate/out/rlib" "$to/$crate/out/rlib"; } || return 1
  done
  for name; do
    cp -R "wrong/$name" "$to/crates/$name/must-fail" || return 1
  done
}

if [ "${1:-}" = --fit ]; then
  fit_all
  exit
fi

# changed EDIT CRATE FOLDER: puts the files of the crate as the wrong body has them below the folder
changed() {
  awk -v edit="$1" -v crate="$2" -v to="$3" '
    function content(file,   text, line) {
      while ((getline line < file) > 0) text = text line "\n"
      close(file)
      return text
    }
    /^file: / {
      file = substr($0, 7)
      if (!(file in texts)) texts[file] = content(crate "/" file)
      next
    }
    /^old: / { old = substr($0, 6); next }
    /^new:/ {
      at = index(texts[file], old)
      texts[file] = substr(texts[file], 1, at - 1) substr($0, 6) substr(texts[file], at + length(old))
    }
    END { for (file in texts) printf "%s", texts[file] > (to "/" file) }
  ' "$1"
}

# twice CRATE: the names that several functions of a crate have
twice() {
  grep -rhoE 'fn [a-z_0-9]+[(<]' "$1/src" | sed 's/^fn //; s/.$//' | sort | uniq -d
}

# functions EDIT CRATE NAMES: the functions that a wrong body changes, each behind --only: with its path where the name is one of NAMES. Nothing where it changes more
# than code within functions
functions() {
  awk -v edit="$1" -v crate="$2" -v twice=" $(echo $3) " '
    function content(file,   text, line) {
      while ((getline line < file) > 0) text = text line "\n"
      close(file)
      return text
    }
    # the path of the function in which a text ends
    function last_path(text, module,   lines, count, name, kind, trait) {
      count = split(text, lines, "\n")
      for (; count > 0; count--)
        if (lines[count] ~ /^ *(pub(\([a-z]+\))? )?(const )?fn [a-z_0-9]+[(<]/) break
      if (!count) return ""
      name = lines[count]
      sub(/^.*fn /, "", name)
      sub(/[(<].*$/, "", name)
      if (!index(twice, " " name " ")) return name
      if (lines[count] ~ /^ /) {
        for (; count > 0; count--)
          if (lines[count] ~ /^impl/) break
        kind = lines[count]
        sub(/^impl(<[^ ]*>)? /, "", kind)
        if (kind ~ / for /) {
          trait = kind
          sub(/[< ].*$/, "", trait)
          sub(/^.* for /, "", kind)
        }
        sub(/[< ].*$/, "", kind)
        name = kind (trait == "Drop" ? "" : trait) "::" name
      }
      return module "::" name
    }
    /^file: / {
      if ($2 !~ /^src\//) other = 1
      text = content(crate "/" $2)
      module = crate "/" $2
      sub(/^crates\//, "", module)
      sub(/\/src/, "", module)
      sub(/(\/lib)?\.rt$/, "", module)
      gsub(/\//, "::", module)
      next
    }
    /^old: / {
      path = last_path(substr(text, 1, index(text, substr($0, 6))), module)
      if (path == "") other = 1
      if (!(path in seen)) told = told " --only " path
      seen[path] = 1
    }
    END { if (!other) print told }
  ' "$1"
}

# proves FOLDER WORD..: whether a check of these functions in the folder proves them all; the answer is 1 where it does not, and 2 where it says nothing
proves() {
  (cd "$1" && shift && rt check --jobs 1 "$@") >"$work/said" 2>&1
  # (a first check says it of a quick pass too, before)
  told=$(sed -n 's/^only=\([0-9]*\) proved=\([0-9]*\)$/\1 \2/p' "$work/said" | tail -n 1)
  [ -n "$told" ] || return 2
  [ "${told%% *}" = "${told##* }" ]
}

# try_functions NAME..
try_functions() {
  refused=0
  left=0
  for name; do
    folder=$work/copy/crates/$name
    several=$(twice "crates/$name")
    whole=$(for edit in "wrong/$name"/*.edit; do functions "$edit" "crates/$name" "$several"; done | tr ' ' '\n' | sort -u | sed -n 's/^[a-z].*/--only &/p')
    # shellcheck disable=SC2086
    [ -z "$whole" ] || proves "$folder" $whole || whole=unproved
    for edit in "wrong/$name"/*.edit; do
      label=$name/$(basename -- "$edit")
      only=$(functions "$edit" "crates/$name" "$several")
      if [ -z "$only" ]; then
        left=$((left + 1))
        echo "$label: left, since it changes more than functions"
        continue
      fi
      if [ "$whole" = unproved ]; then
        left=$((left + 1))
        echo "$label: left, since the functions were not proved as they stand"
        continue
      fi
      changed "$edit" "crates/$name" "$folder" || exit 1
      # shellcheck disable=SC2086
      proves "$folder" $only
      case $? in
        1)
          refused=$((refused + 1))
          echo "$label: refused: $(grep -m 1 -E '^(note: )?src/[^ ]*:[0-9]+:[0-9]+:' "$work/said" | cut -c 1-160)"
          ;;
        0) left=$((left + 1)) && echo "$label: left, since the function is proved with it:$only" ;;
        *) left=$((left + 1)) && echo "$label: left, since the check says nothing: $(grep -m 1 error "$work/said" | cut -c 1-160)" ;;
      esac
      cp -R "crates/$name/src" "$folder/" || exit 1
    done
  done
  echo "$refused of $((refused + left)) wrong bodies refused, $left left"
  [ "$left" = 0 ]
}

by=crates
[ "${1:-}" != --functions ] || {
  by=functions
  shift
}
if [ $# = 0 ]; then
  for folder in wrong/*/; do
    set -- "$@" "$(basename -- "$folder")"
  done
fi
tried=0
for name; do
  if [ ! -d "wrong/$name" ]; then
    echo "wrong.sh: there is no folder wrong/$name" >&2
    exit 2
  fi
  for edit in "wrong/$name"/*.edit; do
    tried=$((tried + 1))
  done
done

work=$(mktemp -d) || exit 1
trap 'rm -rf "$work"' EXIT
# (an early end of rt is not to leave the copy)
trap 'exit 130' INT
trap 'exit 143' TERM
if [ $by = functions ]; then
  mkdir "$work/copy" && copy_to "$work/copy" || exit 1
  try_functions "$@"
  exit
fi
copy_to "$work" "$@" || exit 1
(cd "$work" && rt ci "$@") >"$work/said" 2>&1
status=$?
# (what takes no names says how it is called)
if grep -q '^usage: rt ' "$work/said"; then
  (cd "$work" && rt must-fail "$@") >"$work/said" 2>&1
  status=$?
fi
grep 'must-fail ' "$work/said" | sed 's/^rt: must-fail //'
refused=$(grep -c ': refused, as it must be' "$work/said")
if [ "$status" != 0 ] && [ "$refused" = 0 ]; then
  tail -n 20 "$work/said"
fi
echo "$refused of $tried wrong bodies refused"
[ "$status" = 0 ] && [ "$refused" = "$tried" ]
