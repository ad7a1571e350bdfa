#!/usr/bin/env bash
# Takes minutes, and is run by hand: the tests in which two measurements have to run at once, 200 times each, or as
# often as its one word says.
source "$(dirname "${BASH_SOURCE[0]}")/../checks/common.bash"
times=${1:-200}

# Runs a test of a crate so often, by the tests that the gate built.
meets() {
  local tests=$top/crates/$1/out/$1_tests
  if [ ! -x "$tests" ]; then
    echo "rendezvous: skipped: there is no $tests, which rt test leaves"
    exit 0
  fi
  for ((time = 1; time <= times; time++)); do
    timeout 60 "$tests" "$2" >/dev/null 2>&1
    wants "$2, time $time: its status" "$?" 0
  done
}

meets manager_runner tests::two_workers_measure_at_once
meets copland_cli attest_tests::two_measurements_run_at_once
ends rendezvous "two measurements ran at once in each of $times runs of both tests"
