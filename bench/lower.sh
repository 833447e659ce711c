#!/bin/sh
# Times how texts of about 1,000,000 bytes become code and prints a line for each kind of text: the size of the text, the number of instructions,
# how many bytes each takes with its line and its depth, and the time of `lower` alone.
exec "$(dirname -- "$0")/program.sh" lower \
  'oss_syntax oss_ranges oss_grammar oss_model oss_lex oss_expressions oss_pragma oss_parse oss_types oss_loops oss_names oss_sections oss_meaning oss_code oss_values oss_machine oss_lower' \
  'oss_syntax oss_parse oss_names oss_code oss_lower anyhow'
