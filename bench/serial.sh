#!/bin/sh
# Times the sequential run of a loop over locals, and prints a line for each number of turns.
exec "$(dirname -- "$0")/program.sh" serial \
  'oss_syntax oss_ranges oss_grammar oss_model oss_slots oss_judge oss_sections oss_meaning oss_code oss_values oss_machine oss_body oss_serial' \
  'oss_syntax oss_model oss_meaning oss_code oss_serial anyhow'
