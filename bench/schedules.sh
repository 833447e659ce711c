#!/bin/sh
# Times the reading of schedules of 16,777,216 bytes and prints a line each.
exec "$(dirname -- "$0")/program.sh" schedules 'oss_syntax oss_model oss_sched' 'oss_syntax oss_sched anyhow'
