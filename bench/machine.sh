#!/bin/sh
# Times a loop in the machine, its asks being answered at once and nothing judged, and prints a line for each number of turns.
exec "$(dirname -- "$0")/program.sh" machine \
  'oss_syntax oss_grammar oss_model oss_sections oss_meaning oss_code oss_values oss_machine' \
  'oss_syntax oss_meaning oss_code oss_machine anyhow'
