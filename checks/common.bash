# What the checks share: the top of the repository, and the program that the gate has built.
# shellcheck shell=bash
set -u
cd "$(dirname "${BASH_SOURCE[0]}")/.." || exit 1
top=$PWD
built=$top/crates/cerealspit/out/cerealspit

# Runs the program that the gate built, through the launcher.
use_built_program() {
  if [ ! -x "$built" ]; then
    echo "$1: skipped: there is no $built, which rt ci leaves"
    exit 0
  fi
  export CEREALSPIT_PROGRAM=$built
}

# Counts a case that isn't as it is to be, and says which.
faults=0
wants() {
  if [ "$2" != "$3" ]; then
    faults=$((faults + 1))
    printf '%s: wanted %q, got %q\n' "$1" "$3" "$2"
  fi
}

# Ends a check with what it checked.
ends() {
  if [ "$faults" -gt 0 ]; then
    echo "$1: $faults cases failed"
    exit 1
  fi
  echo "$1: $2"
}
