#!/bin/sh
# Times calls of plain dependency lists and prints a line each. The program does not show that it keeps to the conditions of the calls, so
# it is not proved.
exec "$(dirname -- "$0")/program.sh" deps 'oss_syntax oss_grammar oss_model oss_ranges oss_deps' 'oss_syntax oss_model oss_deps anyhow' try
