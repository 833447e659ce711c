#!/bin/sh
# A random walk over access words, whose steps are made by seats of a table, with every part of their rule read off the words and the views behind each step. It prints a line for each walk:
# START is the number from which its numbers are drawn, TURNS how often a seat is drawn and may make a step, and ENTRIES how many entries a table has. Without words four walks are made.
# It is built with checks and not proved. A part of the rule that does not hold ends it with a status other than 0, and with the entry and the part.
# usage: walk.sh [START TURNS ENTRIES]
case $# in
  0 | 3) ;;
  *)
    echo 'usage: walk.sh [START TURNS ENTRIES]' >&2
    exit 2
    ;;
esac
exec "$(dirname -- "$0")/program.sh" walk 'oss_syntax oss_grammar oss_model oss_ranges oss_words' 'oss_syntax oss_words anyhow' try "$@"
