#!/bin/sh
# Times link, give and deliver on nets, and prints a line each: a list of siblings by one thread, and four lists by four threads. All is proved before, which takes a while.
exec "$(dirname -- "$0")/program.sh" net 'oss_syntax oss_grammar oss_model oss_ranges oss_words oss_word_net' 'oss_syntax oss_words oss_word_net atomic_table anyhow' run
