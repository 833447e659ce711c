#!/bin/sh
# A crew of workers for whom no thread can be made. The tests of a crew are run once more, those of `oss_base_tests`, in a process that may make no thread. The test of four workers is told so,
# and asks that one of them has done everything.
# The last line counts the tests; the status is 0 only if none failed. `tests/crew.sh FILE` runs another program of tests than the one that the gate has built.
top=$(CDPATH='' cd -- "$(dirname -- "$0")/.." && pwd) || exit 1
tests=${1:-$top/crates/oss_base_tests/out/oss_base_tests_tests}
case $tests in
  /*) ;;
  *) tests=$PWD/$tests ;;
esac
if ! [ -x "$tests" ] || ! command -v setpriv >/dev/null || ! command -v prlimit >/dev/null; then
  echo 'crew.sh: the program of tests, setpriv or prlimit is not there, so no crew was tried without threads'
  echo '0 passed, 0 failed'
  exit 0
fi
work=$(mktemp -d) || exit 1
trap 'rm -rf "$work"' EXIT
chmod 755 "$work"
cp "$tests" "$work/tests" || exit 1
cd "$work" || exit 1
passed=0
failed=0

# without_threads WORD..: a command that can make no thread. A user who may do anything has no such limit, so he calls it as nobody.
without_threads() {
  if [ "$(id -u)" = 0 ]; then
    setpriv --reuid=65534 --regid=65534 --clear-groups prlimit --nproc=1 "$@"
  else
    prlimit --nproc=1 "$@"
  fi
}

for name in one_worker_does_everything a_number_waits_for_another four_workers_take_each_number; do
  if NEST6_THREADS=none without_threads ./tests "crew_tests::$name" >told 2>&1; then
    passed=$((passed + 1))
  else
    failed=$((failed + 1))
    echo "failed: $name without threads"
    cat told
  fi
done
# Two workers that look for each other do not meet there, which shows that no thread could be made.
if without_threads ./tests crew_tests::two_workers_meet >told 2>&1; then
  failed=$((failed + 1))
  echo 'failed: two workers met, so a thread could be made'
else
  passed=$((passed + 1))
fi
echo "$passed passed, $failed failed"
[ "$failed" = 0 ]
