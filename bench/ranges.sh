#!/bin/sh
# Times calls of a range map and prints a line each.
exec "$(dirname -- "$0")/program.sh" ranges 'oss_syntax oss_ranges' 'oss_syntax oss_ranges anyhow'
