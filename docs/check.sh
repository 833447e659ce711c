#!/bin/sh
# Whether the documents are as they should be: how long their sentences are, and whether what scripts write of the sources is what they would write
# now. Each of these is looked at, also where one before it fails, so that all findings are told at once. The last line counts; the status is 0 only
# where nothing failed.
cd "$(dirname -- "$0")/.." || exit 1
passed=0
failed=0
note=

# look COMMAND WORD..
look() {
  if "$@"; then
    passed=$((passed + 1))
  else
    failed=$((failed + 1))
    echo "failed: $*"
  fi
}

look docs/lint.sh
# The gate itself needs no python3, so it is not to fail for want of it.
if command -v python3 >/dev/null 2>&1; then
  look docs/definitions.py --check
  look docs/counts.py --check
else
  note='; no python3, so what scripts write was not looked at'
fi
echo "$passed passed, $failed failed$note"
[ "$failed" = 0 ]
